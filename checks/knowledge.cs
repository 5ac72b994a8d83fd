// What docs/KNOWLEDGE.md shows, as whole methods. Before each stands its verdict, and of an unproved one which
// obligations are not proved. checks/knowledge compiles and checks them, and looks for each form of the page here.
using System.Diagnostics.Contracts;

public static class Knowledge
{
    // ---- items of an argument

    // unproved: lower bound, upper bound
    public static int Linked(int[] numbers, int[] next, int k)
    {
        Contract.Requires(numbers != null && next != null && 0 <= k && k < next.Length);
        int at = next[k];
        return numbers[at];
    }

    // proved
    public static int LinkedTested(int[] numbers, int[] next, int k)
    {
        Contract.Requires(numbers != null && next != null && 0 <= k && k < next.Length);
        int at = next[k];
        if (at < 0 || at >= numbers.Length) return -1;
        return numbers[at];
    }

    // unproved: upper bound
    public static int LinkedAssumed(int[] numbers, int[] next, int k)
    {
        Contract.Requires(numbers != null && next != null && 0 <= k && k < next.Length);
        int at = next[k];
        Contract.Assume(at >= 0);
        return numbers[at];
    }

    // unproved: assert
    public static int ReadTwice(int[] a, int[] b, int k)
    {
        Contract.Requires(a != null && b != null && 0 <= k && k < a.Length && k < b.Length);
        if (a[k] > 0)
        {
            b[k] = 0;
            Contract.Assert(a[k] > 0);
        }
        return b[k];
    }

    // proved
    public static void CountInPlace(int[] counts, int d)
    {
        Contract.Requires(counts != null && 0 <= d && d < counts.Length);
        counts[d]++;
    }

    // proved
    public static void Count(int[] counts, int d)
    {
        Contract.Requires(counts != null && 0 <= d && d < counts.Length);
        counts[d] = counts[d] + 1;
    }

    // ---- sums and products

    // unproved: lower bound, upper bound
    public static int Middle(int[] a)
    {
        Contract.Requires(a != null);
        int low = 0, high = a.Length, found = 0, middle;
        while (low < high)
        {
            middle = (low + high) / 2;
            found = a[middle];
            if (found > 0) high = middle; else low = middle + 1;
        }
        return found;
    }

    // proved
    public static int MiddleOfDifference(int[] a)
    {
        Contract.Requires(a != null);
        int low = 0, high = a.Length, found = 0, middle;
        while (low < high)
        {
            middle = low + (high - low) / 2;
            found = a[middle];
            if (found > 0) high = middle; else low = middle + 1;
        }
        return found;
    }

    // unproved: assert
    public static void UpTo(int n)
    {
        int i;
        for (i = 0; i <= n; i++) Contract.Assert(i >= 0);
    }

    // proved
    public static void Below(int n)
    {
        int i;
        for (i = 0; i < n; i++) Contract.Assert(i >= 0);
    }

    // proved
    public static void UpToRequired(int n)
    {
        Contract.Requires(n < int.MaxValue);
        int i;
        for (i = 0; i <= n; i++) Contract.Assert(i >= 0);
    }

    // unproved: upper bound
    public static int Part(int[] a, int start, int count)
    {
        Contract.Requires(a != null && start >= 0 && count >= 0);
        Contract.Requires(start + count <= a.Length);
        int sum = 0;
        for (int i = start; i < start + count; i++) sum += a[i];
        return sum;
    }

    // proved
    public static int PartToEnd(int[] a, int start, int end)
    {
        Contract.Requires(a != null && start >= 0);
        Contract.Requires(end <= a.Length);
        int sum = 0;
        for (int i = start; i < end; i++) sum += a[i];
        return sum;
    }

    // unproved: lower bound, upper bound
    public static int Offset(int[] a, int i, int j)
    {
        Contract.Requires(a != null && i >= 0 && j >= 0);
        Contract.Requires(i < a.Length - j);
        return a[i + j];
    }

    // proved
    public static int OffsetInRest(int[] a, int i, int j)
    {
        Contract.Requires(a != null && i >= 0 && j >= 0 && j <= a.Length);
        int rest = a.Length - j;
        if (i < rest) return a[i + j];
        return -1;
    }

    // unproved: lower bound, upper bound
    public static bool Matches(int[] text, int[] part, int at)
    {
        Contract.Requires(text != null && part != null && at >= 0 && at <= text.Length - part.Length);
        int k;
        for (k = 0; k < part.Length; k++) if (text[at + k] != part[k]) return false;
        return true;
    }

    // proved
    public static bool MatchesBeside(int[] text, int[] part, int at)
    {
        Contract.Requires(text != null && part != null && at >= 0);
        int j, k = 0;
        for (j = at; j < text.Length && k < part.Length; j++)
        {
            if (text[j] != part[k]) return false;
            k++;
        }
        return k == part.Length;
    }

    // unproved: lower bound, upper bound
    public static int Cell(int[] cells, int width, int x, int y)
    {
        Contract.Requires(cells != null && 0 <= x && x < width && 0 <= y && y < cells.Length / width);
        return cells[y * width + x];
    }

    // proved
    public static int CellTested(int[] cells, int width, int x, int y)
    {
        Contract.Requires(cells != null);
        int at = y * width + x;
        if (at < 0 || at >= cells.Length) return -1;
        return cells[at];
    }

    // unproved: lower bound
    public static int Column(int[] cells, int width, int x)
    {
        Contract.Requires(cells != null && 0 <= x && x < width);
        int at, sum = 0;
        for (at = x; at < cells.Length; at += width) sum += cells[at];
        return sum;
    }

    // proved
    public static int ColumnTested(int[] cells, int width, int x)
    {
        Contract.Requires(cells != null && 0 <= x && x < width);
        int at, sum = 0;
        for (at = x; 0 <= at && at < cells.Length; at += width) sum += cells[at];
        return sum;
    }

    // unproved: overflow
    public static int Percent(int part)
    {
        return checked(100 * part);
    }

    // proved
    public static int PercentRequired(int part)
    {
        Contract.Requires(0 <= part && part <= 1000000);
        return checked(100 * part);
    }

    // ---- remainders and divisors

    // unproved: divide overflow
    public static int Remainder(int n, int b)
    {
        if (b == 0) return 0;
        return n % b;
    }

    // proved
    public static int RemainderOfPositive(int n, int b)
    {
        if (b <= 0) return 0;
        return n % b;
    }

    // proved
    public static int RemainderRequired(int n, int b)
    {
        Contract.Requires(n >= 0);
        if (b == 0) return 0;
        return n % b;
    }

    // unproved: ensures 1
    public static int Modulo(int x, int n)
    {
        Contract.Requires(n > 0);
        Contract.Ensures(0 <= Contract.Result<int>() && Contract.Result<int>() < n);
        int r = x % n;
        if (r < 0) r += n;
        return r;
    }

    // proved
    public static int ModuloOfNegative(int x, int n)
    {
        Contract.Requires(n > 0);
        Contract.Ensures(0 <= Contract.Result<int>() && Contract.Result<int>() < n);
        if (x >= 0) return x % n;
        return n - 1 - (-1 - x) % n;
    }

    // unproved: lower bound, upper bound
    public static int Ring(int[] ring, int start, int k)
    {
        Contract.Requires(ring != null && 0 <= start && start < ring.Length && 0 <= k && k < ring.Length);
        int at = start + k;
        if (at >= ring.Length) at -= ring.Length;
        return ring[at];
    }

    // proved
    public static int RingOfRest(int[] ring, int start, int k)
    {
        Contract.Requires(ring != null && 0 <= start && start < ring.Length && 0 <= k && k < ring.Length);
        int rest = ring.Length - start;
        if (k < rest) return ring[start + k];
        return ring[k - rest];
    }

    // unproved: divide by zero, divide overflow
    public static int Scaled(int n, int digits)
    {
        int scale = 1;
        for (int i = 0; i < digits; i++) scale *= 10;
        return n / scale;
    }

    // proved
    public static int ScaledBelow(int n, int digits)
    {
        int scale = 1;
        for (int i = 0; i < digits; i++) if (scale <= 100000000) scale *= 10;
        return n / scale;
    }

    // proved
    public static int ScaledTested(int n, int digits)
    {
        int scale = 1;
        for (int i = 0; i < digits; i++) scale *= 10;
        if (scale <= 0) return 0;
        return n / scale;
    }

    // unproved: divide by zero
    public static bool IsPrime(int n)
    {
        if (n < 2) return false;
        int d;
        for (d = 2; d * d <= n; d++) if (n % d == 0) return false;
        return true;
    }

    // proved
    public static bool IsPrimeByQuotient(int n)
    {
        if (n < 2) return false;
        int d;
        for (d = 2; d <= n / d; d++) if (n % d == 0) return false;
        return true;
    }

    // unproved: divide by zero
    public static int Root(int n)
    {
        Contract.Requires(n > 0);
        int x = n;
        while (x > n / x) x = (x + n / x) / 2;
        return x;
    }

    // proved
    public static int RootTested(int n)
    {
        Contract.Requires(n > 0);
        int x = n;
        while (x > 0 && x > n / x) x = (x + n / x) / 2;
        return x;
    }

    // unproved: divide by zero, divide overflow
    public static int Shares(int n)
    {
        int d, sum = 0;
        for (d = 1; d < 1000; d++) sum += n / d;
        return sum;
    }

    // proved
    public static int SharesDown(int n)
    {
        int d, sum = 0;
        for (d = 999; d > 0; d--) sum += n / d;
        return sum;
    }

    // ---- conditions that were made a value

    // unproved: lower bound, upper bound
    public static int AssumedTogether(int[] a, int i)
    {
        Contract.Requires(a != null);
        Contract.Assume(0 <= i && i < a.Length);
        return a[i];
    }

    // proved
    public static int AssumedApart(int[] a, int i)
    {
        Contract.Requires(a != null);
        Contract.Assume(0 <= i);
        Contract.Assume(i < a.Length);
        return a[i];
    }

    // unproved: lower bound, upper bound
    public static int Stored(int[] a, int i)
    {
        Contract.Requires(a != null);
        bool inside = 0 <= i && i < a.Length;
        if (inside) return a[i];
        return 0;
    }

    // proved
    public static int Tested(int[] a, int i)
    {
        Contract.Requires(a != null);
        if (0 <= i && i < a.Length)
            return a[i];
        return 0;
    }
}
