// cilkrec: expression.c:5: cilk_spawn after `+`
#include <cilk/cilk.h>
int f(int k) { return k; }
int main(void) { int
  x = 1 + cilk_spawn f(2); cilk_sync; return x; }
