using System.Diagnostics.Contracts;

namespace Demo
{
    /// <summary>Methods of a few lines, of which most go wrong for some arguments.</summary>
    public static class Numbers
    {
        /// <summary>The sum of two numbers. It wraps around where it passes the range of int.</summary>
        public static int Sum(int a, int b)
        {
            return a + b;
        }

        /// <summary>The number after another one, of which nothing is required.</summary>
        public static int Next(int number)
        {
            Contract.Assert(number >= int.MinValue);
            Contract.Assert(number < int.MaxValue);
            return number + 1;
        }

        /// <summary>How far a number lies from 0. The least int has no such distance among int.</summary>
        public static int Distance(int number)
        {
            Contract.Ensures(Contract.Result<int>() >= 0);
            return number < 0 ? -number : number;
        }

        /// <summary>A share of a whole in percent, rounded towards zero.</summary>
        public static int Percent(int part, int whole)
        {
            Contract.Requires(part >= 0);
            Contract.Requires(whole > 0);
            return checked(100 * part) / whole;
        }

        /// <summary>Half of an even number.</summary>
        public static int Half(int number)
        {
            Contract.Assume(number % 2 == 0);
            return number / 2;
        }

        /// <summary>How many percent of some flags are set.</summary>
        public static int PercentSet(bool[] flags)
        {
            Contract.Requires(flags != null);
            int count = 0;
            for (int i = 0; i < flags.Length; i++)
            {
                if (flags[i])
                {
                    count++;
                }
            }
            return Percent(count, flags.Length);
        }
    }
}
