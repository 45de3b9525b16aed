/* What is read before a scope ends may race with its children. */
#include <cilk/cilk.h>

int g;
static void put(int k) { g = k; }
static int early(int k)
{
    cilk_scope {
        cilk_spawn put(k);
        return g;
    }
}

int main(void) { return early(1) * 0; }
