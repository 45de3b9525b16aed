#include <stdio.h>
#include <stdbool.h>
#include <cilk/cilk.h>

#define N 2000

static bool composite[N + 1];

int main(void) {
  for (int p = 2; p * p <= N; p++) {
    if (composite[p]) continue;
    cilk_for (int m = p * p; m <= N; m += p) composite[m] = true;
  }
  int count = 0;
  for (int i = 2; i <= N; i++)
    if (!composite[i]) count++;
  printf("%d primes up to %d\n", count, N);
  return 0;
}
