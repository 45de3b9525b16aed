// expect race-free
#include <cilk/cilk.h>
#include <cilk/opadd_reducer.h>
cilk::opadd_reducer<int> s; int main() { cilk_for (int i = 0; i < 10; i++) s += i; return s; }
