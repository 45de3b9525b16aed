/* Arguments on the stack, and structures by value: each spawned call has its own. */
#include <cilk/cilk.h>

struct big { int a[20]; };
int out[4], more[4];

static void by_value(struct big b, int k) { b.a[3] += k; out[k] = b.a[3]; }
static void many(int a, int b, int c, int d, int e, int f, int g, int h, int i, int k)
{
    h += i;
    g += h;
    more[k] = a + b + c + d + e + f + g + h;
}

int main(void)
{
    struct big b = {{0}};
    for (int k = 0; k < 4; k++) {
        cilk_spawn by_value(b, k);
        cilk_spawn many(1, 2, 3, 4, 5, 6, 7, 8, 9, k);
    }
    cilk_sync;
    return out[2] + more[1] - 46;
}
