/* Two halves that don't overlap. */
#include <cilk/cilk.h>
#include <stdlib.h>
#include <string.h>

int a[64];
char text[2][8];
static int less(const void *x, const void *y) { return *(const int *)x - *(const int *)y; }

int main(void)
{
    for (int i = 0; i < 64; i++)
        a[i] = i * 37 % 64;
    cilk_spawn qsort(a, 32, sizeof *a, less);
    cilk_spawn strcpy(text[0], "left");
    strcpy(text[1], "right");
    qsort(a + 32, 32, sizeof *a, less);
    cilk_sync;
    return strcmp(text[0], "left") + (strlen(text[1]) != 5);
}
