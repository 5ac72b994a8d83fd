using System.Diagnostics.Contracts;

namespace Demo
{
    /// <summary>Small calculations whose callers and results are held to contracts.</summary>
    public class Calc
    {
        private int total;

        /// <summary>The greater of two numbers.</summary>
        public static int Max(int a, int b)
        {
            Contract.Ensures(Contract.Result<int>() >= a);
            Contract.Ensures(Contract.Result<int>() >= b);
            return a > b ? a : b;
        }

        /// <summary>The quotient, rounded towards zero.</summary>
        public static int Div(int dividend, int divisor)
        {
            Contract.Requires(divisor != 0);
            return dividend / divisor;
        }

        /// <summary>The sum of all numbers. It wraps around where it passes the range of int.</summary>
        public static int ArraySum(int[] numbers)
        {
            Contract.Requires(numbers != null);
            int sum = 0;
            for (int i = 0; i < numbers.Length; i++)
            {
                sum += numbers[i];
            }
            return sum;
        }

        /// <summary>How many of the flags are set.</summary>
        public static int Count(bool[] flags)
        {
            Contract.Requires(flags != null);
            int count = 0;
            for (int i = 0; i < flags.Length; i++)
            {
                if (flags[i])
                {
                    count++;
                }
            }
            return count;
        }

        /// <summary>An index of the key among numbers in rising order, or -1 where it is none of them.</summary>
        public static int Find(int[] sorted, int key)
        {
            Contract.Requires(sorted != null);
            int low = 0;
            int high = sorted.Length - 1;
            while (low <= high)
            {
                int middle = low + (high - low) / 2;
                if (sorted[middle] == key)
                {
                    return middle;
                }
                if (sorted[middle] < key)
                {
                    low = middle + 1;
                }
                else
                {
                    high = middle - 1;
                }
            }
            return -1;
        }

        /// <summary>Sets the numbers from an index on to one value.</summary>
        public static void Fill(int[] numbers, int from, int value)
        {
            Contract.Requires(numbers != null);
            Contract.Requires(from >= 0, "the place is negative");
            for (int i = from; i < numbers.Length; i++)
            {
                numbers[i] = value;
            }
            Contract.Assert(from >= numbers.Length || numbers[from] == value);
        }

        /// <summary>How many decimal digits a text has.</summary>
        public static int Digits(string text)
        {
            Contract.Requires(text != null);
            int digits = 0;
            foreach (char c in text)
            {
                if (c >= '0' && c <= '9')
                {
                    digits++;
                }
            }
            return digits;
        }

        /// <summary>Adds an amount to the total, and returns the new total.</summary>
        public int Add(int amount)
        {
            Contract.Requires(amount >= 0);
            total += amount;
            return total;
        }
    }
}
