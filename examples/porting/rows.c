#include <cilk/cilk.h>
int t[12];
int main() {
  cilk_for (int i = 0; i < 3; i++)
    cilk_for (int j = 0; j < 4; j++)
      t[4 * i + j] = 10 * i + j;
  print(t[11]);
  return 0;
}
