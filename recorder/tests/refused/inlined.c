// cilkrec: inlined.c:4: a function that spawns is always_inline: take that attribute away
#include <cilk/cilk.h>
static void put(int *to) { *to = 1; }
static inline __attribute__((always_inline)) void both(int *a, int *b) { cilk_spawn put(a); put(b); cilk_sync; }
int main(void) {
  int x, y;
  both(&x, &y);
  return x != y;
}
