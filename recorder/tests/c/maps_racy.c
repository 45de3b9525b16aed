/* Memory by functions that take whole pages, which two strands use, or one gives back. */
#define _GNU_SOURCE
#include <cilk/cilk.h>
#include <malloc.h>
#include <stdlib.h>
#include <sys/mman.h>
#ifndef WHICH
#define WHICH 0
#endif
static int *shared;
static int *mapped(size_t n)
{
    return mmap(0, n, PROT_READ | PROT_WRITE, MAP_PRIVATE | MAP_ANONYMOUS | MAP_NORESERVE, -1, 0);
}
static void use(int *p) { p[3] = 1; }
int main(void)
{
    switch (WHICH) {
    case 0: shared = mapped(4096); cilk_spawn use(shared); munmap(shared, 4096); break;
    case 1: shared = valloc(40); cilk_spawn use(shared); free(shared); break;
    case 2: shared = pvalloc(5000); cilk_spawn use(shared); shared[3] = 2; break;
    case 3: shared = mapped(4096); cilk_spawn use(shared); shared[3] = 2; break;
    }
    cilk_sync;
    return 0;
}
