/* A plain variable beside a reducer still races. */
#include <cilk/cilk.h>

static void zero(void *v) { *(int *)v = 0; }
static void plus(void *l, void *r) { *(int *)l += *(int *)r; }

int main(void)
{
    int cilk_reducer(zero, plus) a = 0;
    int last = 0;
    cilk_for (int i = 0; i < 8; i++) {
        a += i;
        last = i;
    }
    return a + last - 35;
}
