// A reference to what a spawned call gives a reference to: nothing is written.
#include <cilk/cilk.h>
#include <string>
#include <vector>
static int x = 1, y;
static std::vector<std::string> texts = {"one", "two"};
static int &same(int &r) { return r; }
static const std::string &text(const std::vector<std::string> &v) { return v[1]; }
template <class T> T &&moved(T &&v) { return static_cast<T &&>(v); }
int main() {
  int &r = cilk_spawn same(x);
  const auto &t = cilk_spawn text(texts);
  int &&m = cilk_spawn moved<int &&>(static_cast<int &&>(x));
  y = x + (int)texts[1].size();
  cilk_sync;
  return y + r + m + (int)t.size() - 9;
}
