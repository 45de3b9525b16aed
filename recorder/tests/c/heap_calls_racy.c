/* free and realloc, spawned directly; realloc of a block that stays where it is. */
#include <cilk/cilk.h>
#include <stdlib.h>
#ifndef WHICH
#define WHICH 0
#endif
static int *p;
static void same(void) { p = realloc(p, 40); }
int main(void) {
  int k = 0, *q = malloc(40), *r;
  q[1] = 3;
  p = q;
  switch (WHICH) {
  case 0: cilk_spawn free(q); k = q[1]; cilk_sync; break;
  case 1: cilk_spawn same(); k = q[1]; cilk_sync; break;
  case 2: r = cilk_spawn realloc(q, 40); k = q[1]; cilk_sync; k += r[1]; break;
  }
  return k == 99;
}
