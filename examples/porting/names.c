#include <cilk/cilk.h>
int n = 5;
int a[5];
int main() {
  cilk_for (int i = 0; i < n; i++) a[i] = i * i;
  for (int i = 0; i < n; i++) print(a[i]);
  return 0;
}
