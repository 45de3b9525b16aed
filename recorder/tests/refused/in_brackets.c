// cilkrec: in_brackets.c:4: cilk_spawn of more than a call
#include <cilk/cilk.h>
int f(int k) { return k; }
int main(void) { int x = 0; cilk_spawn ((f(1) + f(2))); cilk_sync; return x; }
