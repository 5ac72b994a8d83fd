// A wheel of eight places that turns step by step: after the last place comes the first.
using System.Diagnostics.Contracts;

namespace Demo
{
    public static class Wheel
    {
        // The place where the wheel stops after so many steps.
        public static int Turn(int steps)
        {
            Contract.Ensures(0 <= Contract.Result<int>());
            Contract.Ensures(Contract.Result<int>() <= 7);
            int place = 0;
            for (int step = 0; step < steps; step++)
            {
                if (place == 7) place = 0;
                else place++;
            }
            return place;
        }

        // What lies at the place where the wheel stops.
        public static int Drawn(int[] prizes, int steps)
        {
            Contract.Requires(prizes != null);
            Contract.Requires(prizes.Length == 8);
            return prizes[Turn(steps)];
        }
    }
}
