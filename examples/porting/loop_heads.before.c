#include <cilk/cilk.h>
int a[21];
int main(void) {
  int last = 20;
  cilk_for (int i = last; i >= 0; i -= 5) a[i] = i;
  for (int i = 0; i <= last; i += 5) print(a[i]);
  return 0;
}
