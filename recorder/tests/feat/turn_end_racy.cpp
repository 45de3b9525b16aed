// In a turn of a cilk_for the sync is at its end, and at a `continue` of its own; not at one of a loop in it.
#include <cilk/cilk.h>
#include <vector>
#ifndef WHICH
#define WHICH 0
#endif
static int sum[2];
static void set(std::vector<int> &v) { v[0] = 1; }
int main() {
  switch (WHICH) {
  case 0:
    cilk_for (int i = 0; i < 2; i++) { std::vector<int> v(3); cilk_spawn set(v); v[0] = 2; }
    break;
  case 1:
    cilk_for (int i = 0; i < 2; i++) {
      std::vector<int> v(3);
      cilk_spawn set(v);
      for (int k = 0; k < 2; k++) if (k == 0) { sum[i]++; } else continue;
      v[0] = 2;
    }
    break;
  case 2:
    cilk_for (int i = 0; i < 2; i++) {
      std::vector<int> v(3);
      cilk_spawn set(v);
      int k = 0;
      do { if (k++ < 2) continue; } while (k < 2);
      v[0] = 2;
    }
    break;
  }
  return 0;
}
