// The methods that checks/report compiles: one for each kind of obligation that is judged, and for some reasons.
using System;
using System.Diagnostics.Contracts;

public class Shop
{
    private int stock;
    private static int sold;

    // Proved: what is divided by lies in 1 to 8.
    public static int Share(int total, int part)
    {
        return total / ((part & 7) + 1);
    }

    // Unproved: the divisor may be 0, and the quotient may be that of the least int by -1.
    public static int Ratio(int total, int part)
    {
        return total / part;
    }

    // Unproved: one Assert of two, and a checked sum.
    public static int Sum(int a, int b)
    {
        int low = a & 255;
        Contract.Assert(low >= 0);
        Contract.Assert(b >= 0);
        return checked(low + b);
    }

    // Without contracts: a loop, which is proved.
    public static int Count(int n)
    {
        int count = 0;
        for (int i = 0; i < n; i++)
        {
            count = (count + 1) & 1023;
        }
        return count;
    }

    // It has an Ensures, which is proved.
    public static int Half(int n)
    {
        Contract.Ensures(Contract.Result<int>() <= 1 << 30);
        return n / 2;
    }

    // N1
    public int Take(int n)
    {
        stock -= n;
        return stock;
    }

    // N2
    public static int First<T>(int n)
    {
        return n;
    }

    // N4
    public static int Length(string text)
    {
        return text.Length;
    }

    // N5
    public static int Narrow(int n)
    {
        long wide = n;
        wide = wide * wide;
        return (int)(wide % 10) + (int)(wide % 7);
    }

    // N7
    public static int Safe(int n)
    {
        try
        {
            return n + 1;
        }
        finally
        {
            sold = n;
        }
    }

    // N9: a static field.
    public static int Sold()
    {
        return sold;
    }

    // N11: a method of another assembly.
    public static int Most(int a, int b)
    {
        return Math.Max(a, b);
    }
}
