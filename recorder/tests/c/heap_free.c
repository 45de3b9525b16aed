/* A block that is freed and allocated again is new. */
#include <cilk/cilk.h>
#include <stdlib.h>

int out[16];
static void work(int k)
{
    int *p = malloc(40);
    p[3] = k;
    p = realloc(p, 400);
    p[50] = p[3];
    out[k] = p[50];
    free(p);
}

int main(void)
{
    for (int k = 0; k < 16; k++)
        cilk_spawn work(k);
    cilk_sync;
    return 0;
}
