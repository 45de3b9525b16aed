/* Spawned functions of libc count as frames that read and write their blocks. */
#include <cilk/cilk.h>
#include <stdlib.h>

int a[64];
static int less(const void *x, const void *y) { return *(const int *)x - *(const int *)y; }

int main(void)
{
    for (int i = 0; i < 64; i++)
        a[i] = i * 37 % 64;
    cilk_spawn qsort(a, 33, sizeof *a, less);
    qsort(a + 32, 32, sizeof *a, less);
    cilk_sync;
    return 0;
}
