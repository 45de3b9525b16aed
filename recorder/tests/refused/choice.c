// cilkrec: cilk_spawn inside `? :`
#include <cilk/cilk.h>
int f(int k) { return k; }
int main(int n, char **w) { int x; x = n ? 1 : cilk_spawn f(2); cilk_sync; return x + !w; }
