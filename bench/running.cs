using System;

// The methods that `bench/running` measures, and a program that runs them under Mono.
static class Running {
    // The sum of the items, so often.
    static int Loop(int[] a, int rounds) {
        int sum = 0;
        for (int r = 0; r < rounds; r++)
            for (int i = 0; i < a.Length; i++)
                sum += a[i];
        return sum;
    }

    // The Fibonacci number n, computed below so many frames.
    static int Fib(int depth, int n) {
        if (depth > 0) return Fib(depth - 1, n);
        if (n < 2) return n;
        return Fib(0, n - 1) + Fib(0, n - 2);
    }

    static int Main(string[] words) {
        int n = int.Parse(words[1]);
        int m = int.Parse(words[2]);
        if (words[0] == "fib") {
            Console.WriteLine(Fib(n, m));
            return 0;
        }
        int[] a = new int[n];
        for (int i = 0; i < n; i++) a[i] = i;
        Console.WriteLine(Loop(a, m));
        return 0;
    }
}
