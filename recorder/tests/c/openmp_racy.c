/* An atomic operation of OpenMP's is none without -fopenmp. */
#include <cilk/cilk.h>
static int x;
static void f(void)
{
#pragma omp atomic
    x++;
}
int main(void)
{
    cilk_spawn f();
    f();
    cilk_sync;
    return x - 2;
}
