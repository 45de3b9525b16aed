// cilkrec: comma.c:5: cilk_spawn of more than a call
#include <cilk/cilk.h>
int x;
void f(int k) { x = k; }
int main(void) { cilk_spawn f(1), f(2); cilk_sync; return x; }
