// The methods whose lines checks/report asks for.
using System.Diagnostics.Contracts;

public static class Lines
{
    public static int Sum(int a, int b)
    {
        int low = a & 255;
        Contract.Assert(low >= 0);
        Contract.Assert(
            // no condition: a, b)
            b >= 0 && (low < 256
                || a == ')'),
            "a text, with ) in it");
        return checked(low + b);
    }

    public static int Part(int[] numbers, int at)
    {
        Contract.Requires(numbers != null); Contract.Requires(0 <= at && at < numbers.Length);
        Contract.Ensures(Contract.Result<int>() >= 0);
        return numbers[at];
    }

    public static int First(int[] numbers)
    {
        for (int i = 0; i < 1; i++)
        {
            numbers[i] = 1;
        }
        return Part(numbers, 0);
    }
}
