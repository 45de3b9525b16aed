/* OpenMP's pragmas are none without -fopenmp: these would make threads, and give each its own sum. */
#include <cilk/cilk.h>
static int a[16], sum;
static void half(int from)
{
#pragma omp parallel for reduction(+ : sum) \
    schedule(static)
    for (int i = from; i < from + 8; i++)
        a[i] = i;
}
int main(void)
{
    cilk_spawn half(0);
    half(8);
    cilk_sync;
    _Pragma("omp parallel for")
    for (int i = 0; i < 16; i++)
        sum += a[i];
    return sum - 120;
}
