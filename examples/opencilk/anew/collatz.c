#include <stdio.h>
#include <stdint.h>
#include <cilk/cilk.h>

#define LIMIT 200

typedef struct { int start; int steps; } longest_t;

void identity(void *view) { ((longest_t *)view)->start = 0; ((longest_t *)view)->steps = -1; }
void reduce(void *left, void *right) {
  longest_t *l = left, *r = right;
  if (r->steps > l->steps) *l = *r;
}

static int collatz(uint64_t n) {
  int steps = 0;
  do {
    if (n == 1) break;
    n = (n & 1) ? 3 * n + 1 : n / 2;
    steps++;
  } while (1);
  return steps;
}

int main(void) {
  longest_t cilk_reducer(identity, reduce) best = {0, -1};
  cilk_for (int i = 1; i <= LIMIT; i++) {
    int s = collatz(i);
    if (s > best.steps) {
      best.steps = s;
      best.start = i;
    }
  }
  printf("%d takes %d steps\n", best.start, best.steps);
  return 0;
}
