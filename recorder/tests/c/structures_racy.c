/* Whole structures that calls give and take: WHICH says which of the accesses races. */
#include <cilk/cilk.h>
#ifndef WHICH
#define WHICH 0
#endif
struct small { int x, y; } s, *ps = &s;
struct large { double a[12]; } l, row[4];
_Complex double z;
static struct small make(int k) { return (struct small){k, k + 1}; }
static struct large grow(int k) { struct large r = {{0}}; r.a[11] = k; return r; }
static int take(struct small v) { return v.y; }
static double take_large(struct large v) { return v.a[11]; }
static _Complex double turn(_Complex double v) { return v * 1.0i; }
static void set(void) { s.y = 3, l.a[11] = 4, row[2].a[11] = 5, z = 7; }
int main(void) {
  int got = 0;
  cilk_spawn set();
  switch (WHICH) {
  case 0: s = make(1); break;
  case 1: *ps = make(1); break;
  case 2: l = grow(1); break;
  case 3: row[2] = grow(2); break;
  case 4: got = take(s); break;
  case 5: got = take(*ps); break;
  case 6: got = (int)take_large(row[2]); break;
  case 7: z = turn(1); break;
  case 8: turn(z); break;
  }
  cilk_sync;
  return got > 100;
}
