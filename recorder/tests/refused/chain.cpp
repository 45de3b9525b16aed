// cilkrec: chain.cpp:4: `=` on the left of cilk_spawn
#include <cilk/cilk.h>
int f() { return 7; }
int main() { int x, y; x = y = cilk_spawn f(); cilk_sync; return x + y; }
