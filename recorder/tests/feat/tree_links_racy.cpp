// What libstdc++ has compiled of its trees and lists: WHICH says which of the accesses races.
#include <cilk/cilk.h>
#include <list>
#include <map>
#include <set>
#ifndef WHICH
#define WHICH 0
#endif
static std::map<int, int> m{{1, 1}, {2, 2}, {4, 4}};
static std::set<int> s{10, 20, 30, 40, 50};
static std::list<int> l{3, 1, 2}, other{7, 8};
static void change() {
  switch (WHICH) {
  case 0: m.emplace(3, 3); break;
  case 1: m.erase(2); break;
  case 2: s.erase(10); break;
  case 3: s.insert(5); break;
  case 4: l.reverse(); break;
  case 5: l.splice(l.begin(), other); break;
  case 6: l.push_front(9); break;
  case 7: l.sort(); break;
  }
}
static int look() {
  int n = 0;
  switch (WHICH) {
  case 0: case 1: for (auto &p : m) n += p.second; break;
  case 2: case 3: n = *s.begin(); break;
  default: for (int x : l) n += x;
  }
  return n;
}
int main() { cilk_spawn change(); int n = look(); cilk_sync; return n > 1000; }
