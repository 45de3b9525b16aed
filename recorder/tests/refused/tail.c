// cilkrec: tail.c:5: cilk_spawn of more than a call
#include <cilk/cilk.h>
int y;
int f(void) { return 1; }
int main(void) { int x; x = cilk_spawn f() + y; cilk_sync; return x; }
