using System.Diagnostics.Contracts;

namespace Demo
{
    /// <summary>Methods on arrays that state what they require. Each bound of their indexes is proved, but for one.</summary>
    public static class Arrays
    {
        /// <summary>The last of some numbers.</summary>
        public static int Last(int[] numbers)
        {
            Contract.Requires(numbers != null);
            Contract.Requires(numbers.Length > 0);
            return numbers[numbers.Length - 1];
        }

        /// <summary>An index of the key among numbers in rising order, or -1 where it is none of them.</summary>
        public static int Find(int[] sorted, int key)
        {
            Contract.Requires(sorted != null);
            int low = 0;
            int high = sorted.Length - 1;
            while (low <= high)
            {
                int middle = low + (high - low) / 2;
                if (sorted[middle] == key)
                {
                    return middle;
                }
                if (sorted[middle] < key)
                {
                    low = middle + 1;
                }
                else
                {
                    high = middle - 1;
                }
            }
            return -1;
        }

        /// <summary>The same with a middle that wraps around where there are many numbers.</summary>
        public static int FindInFew(int[] sorted, int key)
        {
            Contract.Requires(sorted != null);
            int low = 0;
            int high = sorted.Length - 1;
            while (low <= high)
            {
                int middle = (low + high) / 2;
                if (sorted[middle] == key)
                {
                    return middle;
                }
                if (sorted[middle] < key)
                {
                    low = middle + 1;
                }
                else
                {
                    high = middle - 1;
                }
            }
            return -1;
        }

        /// <summary>Copies as many numbers as both arrays have room for.</summary>
        public static int Copy(int[] from, int[] to)
        {
            Contract.Requires(from != null && to != null);
            int i = 0;
            while (i < from.Length && i < to.Length)
            {
                to[i] = from[i];
                i++;
            }
            return i;
        }

        /// <summary>The numbers in the opposite order, in a new array.</summary>
        public static int[] Reversed(int[] numbers)
        {
            Contract.Requires(numbers != null);
            int[] reversed = new int[numbers.Length];
            for (int i = 0; i < reversed.Length; i++)
            {
                reversed[i] = numbers[numbers.Length - 1 - i];
            }
            return reversed;
        }

        /// <summary>How many numbers are found by way of an index that another array has.</summary>
        public static int Followed(int[] next, int[] numbers)
        {
            Contract.Requires(next != null && numbers != null);
            int sum = 0;
            for (int i = 0; i < next.Length; i++)
            {
                int at = next[i];
                if (at >= 0 && at < numbers.Length)
                {
                    sum += numbers[at];
                }
            }
            return sum;
        }
    }
}
