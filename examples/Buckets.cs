// Arrays whose items are known: what was stored is read again.
using System.Diagnostics.Contracts;

namespace Demo
{
    public static class Buckets
    {
        // Sets all numbers to 1.
        public static void SetToOne(int[] numbers)
        {
            Contract.Requires(numbers != null);
            for (int i = 0; i < numbers.Length; i++) numbers[i] = 1;
            Contract.Assert(numbers.Length == 0 || numbers[0] == 1);
        }

        // How many numbers have each of the remainders 0 to 7.
        public static int[] Counted(int[] numbers)
        {
            Contract.Requires(numbers != null);
            int[] buckets = new int[numbers.Length];
            for (int i = 0; i < numbers.Length; i++) buckets[i] = numbers[i] & 7;
            int[] counts = new int[8];
            for (int i = 0; i < buckets.Length; i++)
            {
                int bucket = buckets[i];
                counts[bucket] = counts[bucket] + 1;
            }
            return counts;
        }

        // The same, where the buckets are an argument, which may be the array of the counts.
        public static void CountInto(int[] buckets, int[] counts)
        {
            Contract.Requires(buckets != null);
            Contract.Requires(counts != null && counts.Length == 8);
            for (int i = 0; i < buckets.Length; i++) buckets[i] = buckets[i] & 7;
            for (int i = 0; i < buckets.Length; i++)
            {
                int bucket = buckets[i];
                counts[bucket] = counts[bucket] + 1;
            }
        }
    }
}
