/* Memory that is given back and given anew, by functions that take whole pages: no strand uses another one's. */
#define _GNU_SOURCE
#include <cilk/cilk.h>
#include <malloc.h>
#include <stdlib.h>
#include <sys/mman.h>
#ifndef WHICH
#define WHICH 0
#endif
static int *shared;
static int *mapped(size_t n)
{
    return mmap(0, n, PROT_READ | PROT_WRITE, MAP_PRIVATE | MAP_ANONYMOUS | MAP_NORESERVE, -1, 0);
}
static void use(int from)
{
    int *p;
    switch (WHICH) {
    case 0: p = mapped(4096); p[0] = 1; munmap(p, 4096); break;
    case 1: p = valloc(40); p[0] = 1; free(p); break;
    case 2: p = pvalloc(5000); p[2047] = 1; free(p); break;
    case 3: shared[from] = 1; break;
    case 4: p = mapped(1ul << 36); p[1 << 20] = 1; munmap(p, 1ul << 36); break;
    }
}
int main(void)
{
    shared = mapped(4096);
    cilk_spawn use(0);
    use(3);
    cilk_sync;
    return 0;
}
