// cilkrec: optimized.c:4: attribute optimize
#include <cilk/cilk.h>
int g;
__attribute__((noinline, optimize("O3,omit-frame-pointer"))) void set(int k) { g = k; }
int main(void) { cilk_spawn set(1); g = 2; cilk_sync; return 0; }
