// cilkrec: synced.c:5: a function that syncs is always_inline: take that attribute away
#include <cilk/cilk.h>
static int x;
static void put(void) { x = 1; }
static inline __attribute__((always_inline)) void wait(void) { cilk_sync; }
int main(void) {
  cilk_spawn put();
  wait();
  x = 2;
  cilk_sync;
  return 0;
}
