// cilkrec: cilk_spawn inside an expression
#include <cilk/cilk.h>
int f(int k) { return k; }
int main(void) { f(cilk_spawn f(2)); cilk_sync; return 0; }
