#include <stdio.h>
#include <cilk/cilk.h>

void zero(void *v) { *(int *)v = 0; }
void plus(void *l, void *r) { *(int *)l += *(int *)r; }

#define BINS 4

int cilk_reducer(zero, plus) bins[BINS];
int data[1000];

int main(void) {
  for (int i = 0; i < 1000; i++) data[i] = i * 7919 % 1009;
  cilk_for (int i = 0; i < 1000; i++) {
    bins[data[i] % BINS]++;
  }
  for (int b = 0; b < BINS; b++) printf("%d: %d\n", b, bins[b]);
  return 0;
}
