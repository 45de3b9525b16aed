/* Accesses that a compiler which optimises would leave out. */
#include <cilk/cilk.h>
#ifndef WHICH
#define WHICH 0
#endif
struct pair { int a, b; };
static int g, same, list[4];
static long only_written;
static struct pair p, q;
static int get(void) { return g; }
static int *place(int *at, int k) { return at + k; }
static void child(void) {
  switch (WHICH) {
  case 0: case 1: case 2: g = 1; break;
  case 3: only_written = 1; break;
  case 4: same = 0; break;
  case 5: p.b = 1; break;
  case 6: list[2] = 1; break;
  case 7: g++; break;
  }
}
int main(void) {
  int unused;
  cilk_spawn child();
  switch (WHICH) {
  case 0: unused = g; break;
  case 1: get(); break;
  case 2: if (g) unused = 1; break;
  case 3: only_written = 2; break;
  case 4: same = same; break;
  case 5: q = p; break;
  case 6: *place(list, 2) = 2; break;
  case 7: g = 2; g = 3; break;
  }
  cilk_sync;
  return 0;
}
