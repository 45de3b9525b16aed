// cilkrec: no_call.c:4: cilk_spawn of more than a call
#include <cilk/cilk.h>
int x;
int main(void) { cilk_spawn x++; x++; cilk_sync; return x; }
