#include <cilk/cilk.h>
int unit = 1000000000;
int main() {
  int cilk_reducer(add) sum;
  cilk_for (int i = 0; i < 100; i++) {
    int part = 4 * unit / (2 * i + 1);
    if (i % 2) part = -part;
    update(sum, part);
  }
  print(value(sum) * 1000 / unit);
  return 0;
}
