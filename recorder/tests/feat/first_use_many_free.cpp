// A function's static variable whose initialiser makes many blocks, and frees some.
#include <cilk/cilk.h>
#include <map>
#include <string>
#include <vector>
static int look(int k) {
  static const std::map<int, std::string> m = [] {
    std::map<int, std::string> made;
    for (int i = 0; i < 400; i++) made[i] = std::string(40 + i % 3, 'k');
    for (int i = 0; i < 400; i += 3) made.erase(i);
    for (int i = 0; i < 400; i += 3) made[i] = std::string(90, 'l');
    return made;
  }();
  return (int)m.at(k).size();
}
int main() {
  int a = cilk_spawn look(3);
  int b = look(398);
  cilk_sync;
  return a + b - 90 - 42;
}
