/* A program with functions of its own by names of libc's. */
#include <cilk/cilk.h>
static char t[9] = "abc", u[9] = "abcdefg";
static int a[6] = {3, 1, 2, 6, 5, 4};
struct large { int a[40]; } x, y;

int strlen(char *s) { int n = 0; while (s[n]) n++; return n; }
int strcmp(const char *a, const char *b) { return *a - *b; }
int memcmp(const char *a, const char *b, unsigned long n)
{
    while (n--)
        if (*a++ != *b++)
            return 1;
    return 0;
}
void *memcpy(void *to, const void *from, unsigned long n)
{
    for (volatile unsigned long i = 0; i < n; i++)
        ((char *)to)[i] = ((const char *)from)[i];
    return to;
}
void *memset(void *to, int value, unsigned long n)
{
    for (volatile unsigned long i = 0; i < n; i++)
        ((char *)to)[i] = (char)value;
    return to;
}
void qsort(int *p, int low, int high)
{
    if (low >= high)
        return;
    int m = low;
    for (int i = low; i < high; i++)
        if (p[i] < p[high]) {
            int k = p[i];
            p[i] = p[m];
            p[m++] = k;
        }
    int k = p[m];
    p[m] = p[high];
    p[high] = k;
    cilk_spawn qsort(p, low, m - 1);
    qsort(p, m + 1, high);
    cilk_sync;
}

int main(void)
{
    cilk_spawn strlen(t);
    u[0] = 'x';
    cilk_sync;
    qsort(a, 0, 5);
    cilk_for (int i = 0; i < 6; i++)
        x.a[i] = a[i];
    y = x;
    memset(u, 'x', 3);
    return y.a[5] - 6 + memcmp(t, t, 3) + strcmp(u, "x") + strlen(u) - 7;
}
