/* Spawns as the only statement of an if, an else, a loop, a label and a case. */
#include <cilk/cilk.h>

int a[6];
static void put(int k) { a[k] = k; }
static int get(int k) { return k; }

int main(void)
{
    int x = 0;
    for (int k = 0; k < 2; k++)
        if (k)
            cilk_spawn put(0);
        else
            x = cilk_spawn get(1);
    switch (a[5]) {
    case 0: cilk_spawn put(2); break;
    default: cilk_spawn put(3);
    }
    do cilk_spawn put(4); while (0);
again: cilk_spawn put(5);
    cilk_sync;
    if (a[5] != 5) goto again;
    return x - 1;
}
