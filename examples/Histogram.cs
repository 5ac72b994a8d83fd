// Counts and sums that are kept in arrays: counts[i]++ and sums[i] += x.
using System.Diagnostics.Contracts;

namespace Demo
{
    public static class Histogram
    {
        // How many numbers have each of the last digits 0 to 9. Negative numbers do not count.
        public static int[] OfLastDigits(int[] numbers)
        {
            Contract.Requires(numbers != null);
            Contract.Ensures(Contract.Result<int[]>() != null && Contract.Result<int[]>().Length == 10);
            int[] counts = new int[10];
            for (int i = 0; i < numbers.Length; i++)
            {
                int number = numbers[i];
                if (number >= 0) counts[number % 10]++;
            }
            return counts;
        }

        // Adds an amount to one of the sums.
        public static void Add(int[] sums, int at, int amount)
        {
            Contract.Requires(sums != null && 0 <= at && at < sums.Length);
            sums[at] += amount;
        }

        // A sum that was 0 is not negative afterwards, and the other one is 0 still.
        public static void AddToNew(int amount)
        {
            Contract.Requires(0 <= amount);
            int[] sums = new int[2];
            sums[1] += amount;
            Contract.Assert(sums[0] == 0);
            Contract.Assert(sums[1] >= 0);
        }

        // Each number becomes the sum of those up to it.
        public static void SumUp(int[] numbers)
        {
            Contract.Requires(numbers != null);
            for (int i = 1; i < numbers.Length; i++) numbers[i] += numbers[i - 1];
        }

        // Counts a mark. It may lie outside.
        public static void Mark(int[] marks, int at)
        {
            Contract.Requires(marks != null);
            marks[at] ^= 1;
        }
    }
}
