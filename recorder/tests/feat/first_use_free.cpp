// Functions' static variables, made at first use by whichever strand comes first: with memory of their own, too.
#include <cilk/cilk.h>
#include <string>
#include <vector>
static int scale = 3;
static const std::vector<int> &table() {
  static const std::vector<int> t = [] { std::vector<int> v; for (int k = 0; k < 20; k++) v.push_back(k * scale); return v; }();
  return t;
}
static const std::string &name(int k) {
  static std::string names[2] = {std::string(40, 'a'), std::string(3, 'b')};
  return names[k];
}
static int look(int k) { return table()[k] + (int)name(k % 2).size(); }
int main() {
  int a = cilk_spawn look(3);
  int b = look(4);
  cilk_sync;
  return a + b != 9 + 3 + 12 + 40;
}
