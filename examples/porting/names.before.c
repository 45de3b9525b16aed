#include <stdio.h>
#include <cilk/cilk.h>
#define N 5
int a[N];
int main(void) {
  cilk_for (int i = 0; i < N; i++) a[i] = i * i;
  for (int i = 0; i < N; i++) printf("%d\n", a[i]);
  return 0;
}
