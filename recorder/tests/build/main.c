#include <cilk/cilk.h>
#include <stdio.h>
#include "sum.h"

#ifndef SPREAD
#define SPREAD 0 /* by how much the two halves overlap */
#endif

long a[64];

int main(void)
{
    cilk_for (int i = 0; i < 64; i++)
        a[i] = i;
    cilk_spawn halve(a, 32 + SPREAD);
    halve(a + 32, 32);
    cilk_sync;
    printf("%ld\n", sum(a, 64));
    return 0;
}
