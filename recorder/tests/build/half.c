#include <cilk/cilk.h>
#include "sum.h"

void halve(long *a, int n)
{
    cilk_for (int i = 0; i < n; i++)
        a[i] /= 2;
}
