/* realloc frees the old block. */
#include <cilk/cilk.h>
#include <stdlib.h>

int *p, x;
static void use(void) { x = p[1]; }

int main(void)
{
    p = calloc(10, sizeof *p);
    int *q = p;
    cilk_spawn use();
    q = realloc(q, 4000);
    cilk_sync;
    free(q);
    return 0;
}
