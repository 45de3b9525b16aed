// cilkrec: untold.c:4: attribute no_sanitize
#include <cilk/cilk.h>
int g;
__attribute__((noinline, __no_sanitize_thread__, no_sanitize("address"))) void set(int k) { g = k; }
int main(void) { cilk_spawn set(1); g = 2; cilk_sync; return 0; }
