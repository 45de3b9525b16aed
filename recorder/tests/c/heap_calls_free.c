/* The same in series, and a growing block of each strand's own. */
#include <cilk/cilk.h>
#include <stdlib.h>
static int fill(int n) {
  int *a = NULL, sum = 0;
  for (int i = 0; i < n; i++) {
    a = realloc(a, (size_t)(i + 1) * sizeof *a);
    a[i] = i;
  }
  for (int i = 0; i < n; i++) sum += a[i];
  free(a);
  return sum;
}
int main(void) {
  int *p = malloc(40), *q = malloc(40), x, y;
  p[1] = q[1] = 1;
  cilk_spawn free(p);
  q[2] = q[1];
  cilk_sync;
  q = cilk_spawn realloc(q, 4000);
  cilk_sync;
  q[500] = q[2];
  x = cilk_spawn fill(100);
  y = fill(90);
  cilk_sync;
  free(q);
  return x + y != 4950 + 4005;
}
