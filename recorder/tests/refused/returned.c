// cilkrec: cilk_spawn after `return`
#include <cilk/cilk.h>
int f(int k) { return k; }
int main(void) { return cilk_spawn f(0); }
