// What a turn of a cilk_for spawns may use the turn's variables to its end, or to a `continue`: the sync comes first.
#include <cilk/cilk.h>
#include <vector>
static void set(std::vector<int> &v) { v[0] = 1; }
int main() {
  cilk_for (int i = 0; i < 2; i++) {
    std::vector<int> v(3);
    cilk_spawn set(v);
  }
  cilk_for (int i = 0; i < 3; i++) {
    std::vector<int> v(3);
    cilk_spawn set(v);
    for (int k = 0; k < 3; k++)
      if (k == 1)
        v[1] = 0;
      else
        continue;
    if (i == 1) {
      std::vector<int> w(3);
      cilk_spawn set(w);
      continue;
    } else if (i == 2)
      continue;
    v[2] = 2;
  }
}
