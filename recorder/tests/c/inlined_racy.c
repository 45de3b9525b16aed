/* Functions that the compiler puts into others: called beside a spawn, and spawned. */
#include <cilk/cilk.h>
#ifndef WHICH
#define WHICH 0
#endif
#define INLINED static inline __attribute__((always_inline))
#ifdef __clang__
#define SPAWNED static
#else
#define SPAWNED INLINED
#endif
static int x, y;
INLINED int add(int a, int b) { return a + b; }
SPAWNED void put(int *to, int k) { *to = add(k, 1); }
static void one(void) { x = 1; }
int main(void) {
  int k = 0;
  switch (WHICH) {
  case 0: cilk_spawn one(); k = add(1, 2); x = k; cilk_sync; break;
  case 1: cilk_spawn put(&x, add(1, 2)); x = 2; cilk_sync; break;
  case 2: cilk_spawn one(); put(&y, 3); x = add(3, 4); cilk_sync; break;
  }
  return y > 9;
}
