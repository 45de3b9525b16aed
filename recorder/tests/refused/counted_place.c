// cilkrec: counted_place.c:4: `++` on the left of cilk_spawn
#include <cilk/cilk.h>
int f(int k) { return k; }
int main(void) { int a[3], i = 0; a[i++] = cilk_spawn f(i); cilk_sync; return a[0]; }
