// Forms of a spawned call: each is one call, whatever stands before its arguments.
#include <cilk/cilk.h>
#include <cassert>
#include <map>
#include <string>
struct Add {
  int *to;
  template <class T> void by(T k) { *to += (int)k; }
  void operator()(int k) const { *to += k; }
  void operator+(int k) const { *to += k; }
  Add *self() { return this; }
};
template <class A, class B> void both(A a, B b, int *to) { *to = (int)(a + b); }
namespace inner { void set(int *to) { *to = 1; } }
static void set(int *to, std::map<int, std::string> m = {{1, "a"}}) { *to = (int)m.size(); }
#define SPAWN(CALL) cilk_spawn CALL
int main() {
  int n[14] = {};
  Add a[9];
  for (int i = 0; i < 9; i++) a[i].to = &n[i];
  void (*pointer)(int *) = inner::set;
  void (Add::*member)(int) const = &Add::operator();
  cilk_spawn a[0].by<long>(1);
  cilk_spawn a[1].self()->by<unsigned>(1);
  cilk_spawn a[2](1);
  cilk_spawn a[3].operator()(1);
  cilk_spawn a[4].operator+(1);
  cilk_spawn (a[5].*member)(1);
  cilk_spawn (a + 6)->self()->template by<int>(1);
  cilk_spawn both<int, long>(1, 0, &n[7]);
  cilk_spawn (*pointer)(n + 8);
  cilk_spawn (pointer ? pointer : &inner::set)(n + 9);
  cilk_spawn [&]() mutable -> void { assert(n[10] == 0); n[10] = 1; }();
  SPAWN((::set(n + 11)));
  (void)cilk_spawn (void)::inner::set(n + 12);
  cilk_spawn set(n + 13, std::map<int, std::string>{{3, "b"}});
  cilk_sync;
  int sum = 0;
  for (int k : n) sum += k;
  return sum - 14;
}
