// cilkrec: a declaration goes on after cilk_spawn
#include <cilk/cilk.h>
int f(int k) { return k; }
int main(void) { int x = cilk_spawn f(0), y = 2; cilk_sync; return x + y; }
