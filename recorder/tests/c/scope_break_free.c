/* A scope is left by its end, by break and by return. */
#include <cilk/cilk.h>

int g;
static void put(int k) { g = k; }
static int early(int k)
{
    cilk_scope {
        cilk_spawn put(k);
        if (k > 1)
            return 0;
    }
    put(k + 1);
    return 0;
}

int main(void)
{
    for (int k = 0; k < 3; k++)
        cilk_scope {
            cilk_spawn put(k);
        }
    early(1);
    g = 3;
    return 0;
}
