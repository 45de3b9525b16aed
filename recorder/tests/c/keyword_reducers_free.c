/* Reducers by keyword: global, local, arrays, through a pointer, two in a declaration, anew in each turn of a loop. */
#include <cilk/cilk.h>

static void zero(void *v) { *(int *)v = 0; }
static void plus(void *l, void *r) { *(int *)l += *(int *)r; }

int cilk_reducer(zero, plus) total;
static int cilk_reducer(zero, plus) bins[4], *unused;
static void add(int cilk_reducer(zero, plus) *to, int k) { *to += k; }

int main(void)
{
    int sum = 0;
    for (int t = 0; t < 3; t++) {
        int cilk_reducer(zero, plus) a = 0, b = 0;
        cilk_for (int i = 0; i < 8; i++) {
            a += i;
            add(&b, 1);
            total++;
            bins[i % 4]++;
        }
        sum += a + b;
    }
    return sum + total + bins[1] - 3 * 36 - 24 - 6 + (unused != 0);
}
