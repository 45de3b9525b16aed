// cilkrec: block.c:4: cilk_spawn of a block
#include <cilk/cilk.h>
int n;
int main(void) { cilk_spawn { n = 1; } cilk_sync; return n; }
