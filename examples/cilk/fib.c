/*
 * Fibonacci numbers by two calls, of which the first is spawned. With -DRACY the sum is taken before the sync, so it
 * may read x before the child's result is in it.
 */
#include <cilk/cilk.h>
#include <stdio.h>

#ifndef N
#define N 12
#endif

static long fib(int n)
{
    if (n < 2)
        return n;
    long x = cilk_spawn fib(n - 1);
    long y = fib(n - 2);
#ifdef RACY
    long sum = x + y;
    cilk_sync;
    return sum;
#else
    cilk_sync;
    return x + y;
#endif
}

int main(void)
{
    printf("fib(%d) = %ld\n", N, fib(N));
    return 0;
}
