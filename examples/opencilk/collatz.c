#include <stdio.h>
#include <limits.h>
#include <cilk/cilk.h>

void lowest(void *v) { *(long *)v = LONG_MIN; }
void greater(void *l, void *r) { if (*(long *)r > *(long *)l) *(long *)l = *(long *)r; }

long steps(long n) {
  long count = 0;
  while (n != 1) {
    n = n % 2 ? 3 * n + 1 : n / 2;
    count++;
  }
  return count;
}

int main(void) {
  long cilk_reducer(lowest, greater) best = LONG_MIN;
  cilk_for (long n = 1; n <= 1000; n++) {
    long s = steps(n);
    if (s > best) best = s;
  }
  printf("%ld\n", best);
  return 0;
}
