// unseen: dlsym
#define _GNU_SOURCE
#include <cilk/cilk.h>
#include <dlfcn.h>
#include <string.h>
static char a[40];
static void f(void) { a[20] = 1; }
int main(void)
{
    void *(*set)(void *, int, size_t) = (void *(*)(void *, int, size_t))dlsym(RTLD_DEFAULT, "memset");
    cilk_spawn f();
    set(a, 1, 10);
    cilk_sync;
    return a[9] - 1;
}
