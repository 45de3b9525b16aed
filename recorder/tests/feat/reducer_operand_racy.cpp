// expect race
// A child writes what its parent adds to a reducer.
#include <cilk/cilk.h>
#include <cilk/opadd_reducer.h>
int x; cilk::opadd_reducer<int> s;
void put() { x = 1; }
int main() { cilk_spawn put(); s += x; cilk_sync; return s.get_value() > 1; }
