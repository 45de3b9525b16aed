// A reference to a value that a spawned call gives: the call writes it.
#include <cilk/cilk.h>
#include <string>
#ifndef WHICH
#define WHICH 0
#endif
static int two() { return 2; }
static std::string text(int n) { return std::string(n, 'x'); }
int main() {
  switch (WHICH) {
  case 0: { const int &r = cilk_spawn two(); int k = r; cilk_sync; return k - 2; }
  case 1: { auto &&t = cilk_spawn text(50); char c = t[3]; cilk_sync; return c - 'x'; }
  }
  return 0;
}
