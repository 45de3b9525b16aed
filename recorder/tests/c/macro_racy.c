/* Words that come out of macros. */
#include <cilk/cilk.h>

#define GO cilk_spawn
#define ALL(i, n) cilk_for (int i = 0; i < (n); i++)
int g, a[9];
static int add(int *p) { return *p += 1; }

int main(void)
{
    ALL(i, 9) a[i] = i;
    int x = GO add(&g);
    int y = add(&g);
    cilk_sync;
    return x + y - 3;
}
