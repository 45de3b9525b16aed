/* Results go to places that the parent finds before it spawns. */
#include <cilk/cilk.h>

struct pair { int left, right; };
static int twice(int k) { return 2 * k; }

int main(void)
{
    int a[4], i = 0, *p = a + 1;
    struct pair pair, *q = &pair;
    a[i] = cilk_spawn twice(1);
    *p = cilk_spawn twice(2);
    i++, p++;
    *(p) = cilk_spawn twice(3);
    q->left = cilk_spawn twice(4);
    pair.right = cilk_spawn twice(5);
    (*(p + 1)) = cilk_spawn twice(6);
    (void)cilk_spawn twice(7);
    cilk_sync;
    return a[0] + a[1] + a[2] + a[3] + pair.left + pair.right - 42;
}
