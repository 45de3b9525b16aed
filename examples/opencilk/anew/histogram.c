#include <stdio.h>
#include <stdlib.h>
#include <cilk/cilk.h>
#include <cilk/opadd_reducer.h>

#define BUCKETS 4

void zero(void *v) { *(long *)v = 0; }
void add(void *l, void *r) { *(long *)l += *(long *)r; }

int main(int argc, char *argv[]) {
  const int n = 200;
  unsigned char *pixels = malloc(n);
  for (int i = 0; i < n; i++)
    pixels[i] = (unsigned char)(i * i);
  long cilk_reducer(zero, add) histogram[BUCKETS] = {0};
  cilk_for (int i = 0; i < n; i++)
    histogram[pixels[i] / 64]++;
  for (int b = 0; b < BUCKETS; b++)
    printf("%d: %ld\n", b, histogram[b]);
  free(pixels);
}
