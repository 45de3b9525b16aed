// cilkrec: assigned.c:4: cilk_spawn of more than a call
#include <cilk/cilk.h>
int x, y;
int main(void) { cilk_spawn x = y; x = 3; cilk_sync; return x; }
