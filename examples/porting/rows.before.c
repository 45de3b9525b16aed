#include <cilk/cilk.h>
int t[3][4];
int main(void) {
  cilk_for (int i = 0; i < 3; i++)
    cilk_for (int j = 0; j < 4; j++)
      t[i][j] = 10 * i + j;
  print(t[2][3]);
  return 0;
}
