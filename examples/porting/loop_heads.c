#include <cilk/cilk.h>
int a[21];
int main() {
  int last = 20;
  cilk_for (int k = 0; k < last / 5 + 1; k++) {
    int i = last - 5 * k;
    a[i] = i;
  }
  for (int i = 0; i <= last; i += 5) print(a[i]);
  return 0;
}
