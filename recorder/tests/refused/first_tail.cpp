// cilkrec: first_tail.cpp:5: cilk_spawn of more than a call
#include <cilk/cilk.h>
int y;
int f() { return 1; }
int main() { int x = cilk_spawn f() + y; cilk_sync; return x; }
