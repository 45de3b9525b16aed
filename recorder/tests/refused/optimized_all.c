// cilkrec: optimized_all.c:3: #pragma GCC optimize
#include <cilk/cilk.h>
#pragma GCC optimize("omit-frame-pointer")
int g;
void set(int k) { g = k; }
int main(void) { cilk_spawn set(1); g = 2; cilk_sync; return 0; }
