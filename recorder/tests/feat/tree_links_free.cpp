// Trees and lists of each strand's own, and one that all strands read.
#include <cilk/cilk.h>
#include <list>
#include <map>
#include <set>
#include <unordered_map>
static std::map<int, int> shared;
static int work(int seed) {
  std::map<int, int> m;
  std::set<unsigned> s;
  std::list<int> l;
  std::unordered_map<int, int> h;
  unsigned x = (unsigned)seed;
  for (int i = 0; i < 60; i++) {
    x = x * 1103515245u + 12345u;
    int k = (int)(x >> 16 & 31);
    if (x >> 28 & 1) m[k] = i, s.insert(x), l.push_back(k), h[k] = i;
    else m.erase(k), l.remove(k), h.erase(k);
  }
  l.sort();
  l.reverse();
  int n = (int)s.size();
  for (auto &p : m) n += p.second + shared.count(p.first);
  for (int k : l) n += k;
  return n + (m.size() == h.size() ? 0 : 100000);
}
int main() {
  for (int i = 0; i < 20; i++) shared[i * 7 % 20] = i;
  int a = cilk_spawn work(1);
  int b = cilk_spawn work(2);
  int c = work(1);
  cilk_sync;
  return a != c || a + b > 100000;
}
