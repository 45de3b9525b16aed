#include <cilk/cilk.h>
#include "sum.h"

long sum(const long *a, int n)
{
    if (n < 5) {
        long s = 0;
        for (int i = 0; i < n; i++)
            s += a[i];
        return s;
    }
    long left = cilk_spawn sum(a, n / 2);
    long right = sum(a + n / 2, n - n / 2);
    cilk_sync;
    return left + right;
}
