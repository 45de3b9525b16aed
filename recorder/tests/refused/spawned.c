// cilkrec: spawned.c:6: a function that is always_inline is spawned: clang has no frame for it; take that attribute away
#include <cilk/cilk.h>
static inline __attribute__((always_inline)) void put(int *to) { *to = 1; }
int main(void) {
  int x, y;
  cilk_spawn put(&x);
  put(&y);
  cilk_sync;
  return x != y;
}
