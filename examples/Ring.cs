// A queue of numbers in a ring: the items lie in an array from a place on, and go round at its end.
using System.Diagnostics.Contracts;

namespace Demo
{
    public static class Ring
    {
        // The place so many steps after another one, in a ring of so many places.
        public static int After(int place, int steps, int size)
        {
            Contract.Requires(0 <= place && place < size);
            Contract.Requires(0 <= steps && steps <= size);
            Contract.Ensures(0 <= Contract.Result<int>());
            Contract.Ensures(Contract.Result<int>() < size);
            int room = size - place;
            return steps < room ? place + steps : steps - room;
        }

        // The k-th item, counted from 0.
        public static int Item(int[] ring, int head, int count, int k)
        {
            Contract.Requires(ring != null);
            Contract.Requires(0 <= head && head < ring.Length);
            Contract.Requires(count <= ring.Length);
            Contract.Requires(0 <= k && k < count);
            return ring[After(head, k, ring.Length)];
        }

        // Puts an item behind the last one, and gives how many there are then.
        public static int Push(int[] ring, int head, int count, int item)
        {
            Contract.Requires(ring != null);
            Contract.Requires(0 <= head && head < ring.Length);
            Contract.Requires(0 <= count && count < ring.Length);
            Contract.Ensures(Contract.Result<int>() == count + 1);
            ring[After(head, count, ring.Length)] = item;
            return count + 1;
        }

        // Where the first item is after the first one was taken.
        public static int Pop(int[] ring, int head, int count)
        {
            Contract.Requires(ring != null);
            Contract.Requires(0 <= head && head < ring.Length);
            Contract.Requires(0 < count && count <= ring.Length);
            Contract.Ensures(0 <= Contract.Result<int>());
            Contract.Ensures(Contract.Result<int>() < ring.Length);
            return After(head, 1, ring.Length);
        }

        // Which item is the number, or -1.
        public static int Find(int[] ring, int head, int count, int number)
        {
            Contract.Requires(ring != null);
            Contract.Requires(0 <= head && head < ring.Length);
            Contract.Requires(0 <= count && count <= ring.Length);
            Contract.Ensures(Contract.Result<int>() < count);
            for (int k = 0; k < count; k++)
            {
                if (Item(ring, head, count, k) == number) return k;
            }
            return -1;
        }

        // The items in a new array of twice the size, from place 0 on.
        public static int[] Grown(int[] ring, int head, int count)
        {
            Contract.Requires(ring != null);
            Contract.Requires(0 <= head && head < ring.Length);
            Contract.Requires(0 <= count && count <= ring.Length);
            Contract.Requires(ring.Length <= 1000000);
            Contract.Ensures(Contract.Result<int[]>() != null);
            Contract.Ensures(Contract.Result<int[]>().Length == 2 * ring.Length);
            int[] grown = new int[2 * ring.Length];
            for (int k = 0; k < count; k++) grown[k] = Item(ring, head, count, k);
            return grown;
        }

        // An item that was put is found again.
        public static void PushedIsThere(int[] ring, int head, int count, int item)
        {
            Contract.Requires(ring != null);
            Contract.Requires(0 <= head && head < ring.Length);
            Contract.Requires(0 <= count && count < ring.Length);
            int more = Push(ring, head, count, item);
            Contract.Assert(Item(ring, head, more, count) == item);
        }
    }
}
