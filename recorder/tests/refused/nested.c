// cilkrec: a function in a function
#include <cilk/cilk.h>
int sum(const int *a, int n) {
  int total = 0;
  void add(int k) { total += a[k]; }
  for (int i = 0; i < n; i++) cilk_spawn add(i);
  cilk_sync;
  return total;
}
int main(void) { int a[3] = {1, 2, 3}; return sum(a, 3) - 6; }
