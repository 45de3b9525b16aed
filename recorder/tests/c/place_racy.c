/* The same place twice. */
#include <cilk/cilk.h>

struct pair { int left, right; };
static int twice(int k) { return 2 * k; }

int main(void)
{
    struct pair pair[2], *q = pair;
    q->left = cilk_spawn twice(1);
    q->right = cilk_spawn twice(2);
    q++;
    pair[0].left = cilk_spawn twice(3);
    cilk_sync;
    return pair[0].left;
}
