// unseen: open_memstream
#define _GNU_SOURCE
#include <cilk/cilk.h>
#include <stdio.h>
static char *text;
static size_t n;
static FILE *out;
static void f(void) { fputs("hello", out); }
int main(void)
{
    out = open_memstream(&text, &n);
    cilk_spawn f();
    cilk_sync;
    return fclose(out);
}
