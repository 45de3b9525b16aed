// expect race
// A child writes what its parent gives to a reducer.
#include <cilk/cilk.h>
#include <cilk/reducer_max.h>
int x; cilk::max_reducer<int> s;
void put() { x = 1; }
int main() { cilk_spawn put(); s.calc_max(x); cilk_sync; return s.get_value() > 1; }
