// A block's end is no sync: its variables end beside what it spawned. Nor does a callee's end join its caller's children.
#include <cilk/cilk.h>
#include <vector>
#ifndef WHICH
#define WHICH 0
#endif
static int sum;
static void add(const std::vector<int> &v) { sum += v[0]; }
static int early(std::vector<int> &v) {
  std::vector<int> w(2, 3);
  cilk_spawn add(w);
  return v[0] = 2;
}
int main() {
  std::vector<int> v(3, 1);
  switch (WHICH) {
  case 0: { std::vector<int> w(3, 1); cilk_spawn add(w); } break;
  case 1: cilk_spawn add(v); early(v); break;
  case 2: { auto other = [&] { return v[0] = 1; }; cilk_spawn add(v); other(); break; }
  case 3: cilk_spawn add(v); return sum;
  case 4: if (v[0]) { cilk_spawn add(v); } v[0] = 4; return 0;
  }
  cilk_sync;
  return 0;
}
