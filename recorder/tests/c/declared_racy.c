/* The result of a spawned call is read before the sync. */
#include <cilk/cilk.h>

static long one(void) { return 1; }

int main(void)
{
    const long x = cilk_spawn one();
    long y = x;
    cilk_sync;
    return (int)y - 1;
}
