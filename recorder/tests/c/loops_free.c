/* Loops that count down, by steps, without sign, of no turns, in one another; a bound that is evaluated once. */
#include <cilk/cilk.h>

unsigned a[50];
int calls;
static int bound(void) { calls++; return 20; }

int main(void)
{
    cilk_for (int i = 49; i >= 0; i -= 2) a[i] = (unsigned)i;
    cilk_for (unsigned long i = 0; i != 50; ++i) a[i] += (unsigned)i;
    cilk_for (unsigned i = 3; i < 50u; i += 7) a[i] *= 2;
    cilk_for (int i = 5; i < 5; i++) a[0] = (unsigned)i;
    cilk_for (short i = 5; i < 2; i++) a[0] = (unsigned)i;
    int n = bound();
    cilk_for (int i = 0; i < n; i++)
        cilk_for (int j = 0; j < 2; j++)
            a[2 * i + j] = (unsigned)(i + j);
    return calls - 1;
}
