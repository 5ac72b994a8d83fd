// What C# teams write that is not analysed. Before each method stand its printed name, its reason, and what
// tools/report says was written; where symbols tell more, what it says with them. checks/explanations compiles it.
using System;
using System.Collections.Generic;
using System.Diagnostics.Contracts;
using System.Linq;

public class Account
{
    private int balance;
    private static int opened;

    // Account::.ctor | N1 instance | a constructor
    public Account(int start)
    {
        Contract.Requires(start >= 0);
        balance = start;
        opened = opened + 1;
    }

    // Account::.cctor | N9 opcode | a static constructor, or the first values of static fields
    private static int[] rates = { 1, 2, 3 };

    // Account::get_Balance | N1 instance | a property or an indexer
    // Account::set_Balance | N1 instance | a property or an indexer
    public int Balance { get { return balance; } set { balance = value; } }

    // Account::get_Limit | N1 instance | a property or an indexer
    // Account::set_Limit | N1 instance | a property or an indexer
    public int Limit { get; set; }

    // Account::get_Opened | N9 opcode | a static field, also behind a property
    public static int Opened { get { return opened; } }

    // Account::get_Item | N1 instance | a property or an indexer
    public int this[int k] { get { return rates[k]; } }

    // Account::ObjectInvariant | N1 instance | an invariant of objects
    [ContractInvariantMethod]
    private void ObjectInvariant()
    {
        Contract.Invariant(balance >= 0);
    }

    // Account::Deposit | N1 instance | a method of an object or an interface
    public void Deposit(int amount)
    {
        Contract.Requires(amount > 0);
        Contract.Ensures(balance == Contract.OldValue(balance) + amount);
        balance += amount;
    }

    // Account::op_Addition | N4 signature type | an operator of a type
    public static int operator +(Account a, int b) { return b; }

    // Account::Finalize | N1 instance | a destructor
    ~Account() { }
}

public static class Contracts
{
    // Contracts::RequiresOfException | N11 token | `Contract.Requires<E>`, or another generic method
    public static int RequiresOfException(int[] a)
    {
        Contract.Requires<ArgumentNullException>(a != null, "a");
        return a.Length;
    }

    // Contracts::RequiresOfExceptionFirst | N10 not pure | `Contract.Requires<E>`, or another generic method
    public static int RequiresOfExceptionFirst(int[] a)
    {
        Contract.Requires<ArgumentNullException>(a != null);
        Contract.Requires(a.Length > 0);
        return a[0];
    }

    // Contracts::AllPositive | N5 local type | a lambda, as in Contract.ForAll
    // <AllPositive>c__AnonStorey0::.ctor | N1 instance | what the compiler makes of a lambda
    // <AllPositive>c__AnonStorey0::<>m__0 | N1 instance | what the compiler makes of a lambda
    public static int AllPositive(int[] a)
    {
        Contract.Requires(a != null);
        Contract.Requires(Contract.ForAll(0, a.Length, i => a[i] > 0));
        return a.Length;
    }

    // Contracts::AllItems | N9 opcode | a lambda, as in Contract.ForAll
    public static int AllItems(int[] a)
    {
        Contract.Requires(a != null);
        Contract.Requires(Contract.ForAll(a, x => x > 0));
        return a.Length;
    }

    // Contracts::IfThrow | N9 opcode | `new` of an object, as in `if (..) throw new ..` | `if (..) throw`
    public static int IfThrow(int[] a)
    {
        if (a == null) throw new ArgumentNullException("a");
        Contract.EndContractBlock();
        return a.Length;
    }

    // Contracts::IfThrowNumber | N9 opcode | a number made an object, as for a text | `if (..) throw`
    public static int IfThrowNumber(int n)
    {
        if (n < 0) throw new ArgumentException("not " + n);
        Contract.EndContractBlock();
        return n / 2;
    }

    // Contracts::Helper | N10 not pure | a method called in a contract, or between two
    public static int Helper(int[] a)
    {
        Contract.Requires(IsSet(a));
        return a.Length;
    }

    [Pure]
    public static bool IsSet(int[] a)
    {
        return a != null;
    }

    // Contracts::Late | N10 not pure | a statement before or between contracts
    public static int Late(int n)
    {
        n = n + 1;
        Contract.Requires(n > 0);
        return n;
    }
}

public static class Bodies
{
    // Bodies::Twice | N5 local type | a lambda, as in Contract.ForAll
    public static int Twice(int n)
    {
        Func<int, int> twice = x => x * 2;
        return twice(n);
    }

    // Bodies::Positive | N9 opcode | a lambda, as in Contract.ForAll
    public static int Positive(int[] a)
    {
        return a.Where(x => x > 0).Count();
    }

    // Bodies::PositiveOfFew | N9 opcode | a cast to byte, sbyte, short, ushort or char
    public static int PositiveOfFew(int[] a, int n)
    {
        return a.Take(
            (byte)n).Where(x => x > 0).Count();
    }

    // Bodies::Unwritten | N4 signature type | a parameter or result such as string, long, an object or `ref int`
    public static int Unwritten(string text)
    {
        throw new NotImplementedException();
    }

    // Bodies::ListSum | N4 signature type | a parameter or result such as string, long, an object or `ref int`
    public static int ListSum(List<int> a)
    {
        int sum = 0;
        foreach (int x in a) sum += x;
        return sum;
    }

    // Bodies::RangeSum | N5 local type | a local variable such as string, long or an object
    public static int RangeSum()
    {
        int sum = 0;
        foreach (int x in Enumerable.Range(0, 10)) sum += x;
        return sum;
    }

    // Bodies::Digits | N4 signature type | a parameter or result such as string, long, an object or `ref int`
    public static int Digits(string text)
    {
        Contract.Requires(text != null);
        int count = 0;
        foreach (char c in text) if (c >= '0' && c <= '9') count++;
        return count;
    }

    // Bodies::TryHalf | N4 signature type | a parameter or result such as string, long, an object or `ref int`
    public static bool TryHalf(int n, out int half)
    {
        half = n / 2;
        return true;
    }

    // Bodies::HalfOf | N9 opcode | `ref`, `out`, a struct or a pointer
    public static int HalfOf(int n)
    {
        int half;
        return TryHalf(n, out half) ? half : 0;
    }

    // Bodies::Most | N11 token | a method of another assembly, as Math.Max
    public static int Most(int a, int b)
    {
        return Math.Max(a, b);
    }

    // Bodies::DigitsOfNone | N11 token | a method of this assembly that is not static, or takes other types
    public static int DigitsOfNone()
    {
        return Digits(null);
    }

    // Bodies::Longs | N11 token | an array of other items
    public static int Longs(int n)
    {
        return new long[n & 7].Length;
    }

    // Bodies::Listed | N9 opcode | an array with listed items (`{ 1, 2, 3 }`), or typeof
    public static int Listed()
    {
        int[] a = { 1, 2, 3 };
        return a[1];
    }

    // Bodies::Copy | N9 opcode | a call of an object's method or property
    public static int Copy(int[] a)
    {
        int[] b = (int[])a.Clone();
        return b.Length;
    }

    // Bodies::Byte | N9 opcode | a cast to byte, sbyte, short, ushort or char
    public static int Byte(int n)
    {
        return (byte)n;
    }

    // Bodies::Wide | N9 opcode | a number other than int, or a checked cast
    public static int Wide(int a, int b)
    {
        return (int)(((long)a + b) / 2);
    }

    // Bodies::Opened | N9 opcode | `new` of an object, as in `if (..) throw new ..`
    public static int Opened()
    {
        return new Account(1).Balance;
    }

    // Bodies::Numbers | N4 signature type | a parameter or result such as string, long, an object or `ref int`
    // <Numbers>c__Iterator0::MoveNext | N1 instance | what the compiler makes of yield or await
    public static IEnumerable<int> Numbers(int n)
    {
        for (int i = 0; i < n; i++) yield return i;
    }

    // Bodies::Main | N4 signature type | Main with its words
    public static void Main(string[] words)
    {
    }

    // A foreach over an array is analysed.
    public static int Sum(int[] a)
    {
        Contract.Requires(a != null);
        int sum = 0;
        foreach (int x in a) sum += x;
        return sum;
    }

    // Bodies::Alike | N4 signature type | a parameter or result such as string, long, an object or `ref int`
    // They are told apart by their tokens.
    public static int Alike(string s) { return 0; }
    public static int Alike(long s) { return 0; }
}

// Change::.ctor | N1 instance | a delegate type
// Change::Invoke | N1 instance | a delegate type
public delegate int Change(int n);

public interface ICounter
{
    // ICounter::Next | N1 instance | a method of an object or an interface
    int Next(int n);
}
