// A variable's first value by a spawned call whose result is part of its own arguments: copied, or turned, before they end.
#include <cilk/cilk.h>
#include <memory>
#include <string>
#include <string_view>
static const std::string &longer(const std::string &a, const std::string &b) { return a.size() > b.size() ? a : b; }
static const char *text(const std::string &a) { return a.c_str(); }
static std::unique_ptr<int> own(int k) { return std::make_unique<int>(k); }
static int &element(int *a, int k) { return a[k]; }
int main() {
  int a[3] = {1, 2, 3};
  std::string s = cilk_spawn longer(std::string(40, 'x'), std::string("y"));
  const std::string t = cilk_spawn text(std::string(50, 'z'));
  cilk_sync;
  auto u = cilk_spawn longer(std::string(30, 'u'), s.substr(0, 2));
  std::unique_ptr<int> p = cilk_spawn own(7);
  int &r = cilk_spawn element(a, 1);
  const auto *q = cilk_spawn text(s);
  cilk_sync;
  r = 9;
  return s != std::string(40, 'x') || t != std::string(50, 'z') || u.size() != 30 || *p != 7 || a[1] != 9 || q[0] != 'x';
}
