// expect view
#include <cilk/cilk.h>
#include <cilk/opadd_reducer.h>
cilk::opadd_reducer<int> s; void add() { s += 1; } int main() { int x; cilk_spawn add(); x = s; cilk_sync; return x; }
