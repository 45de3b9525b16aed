// unseen: an operation of vectors by a mask
#include <cilk/cilk.h>
#include <immintrin.h>
static char place[512] __attribute__((aligned(64)));
static int x;
static void f(void) { x = 1; }
int main(void)
{
    cilk_spawn f();
    _fxsave(place);
    cilk_sync;
    return x - 1;
}
