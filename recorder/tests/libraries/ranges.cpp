// librange-v3-dev: g++ race-free, race
#include <cilk/cilk.h>
#include <range/v3/all.hpp>
#include <vector>
static std::vector<int> sums(4);
static void add(int k) {
  auto odd = ranges::views::iota(1, 30) | ranges::views::filter([k](int n) { return n % 4 == k; });
#ifdef RACY
  sums[k / 2] += ranges::accumulate(odd, 0);
#else
  sums[k] = ranges::accumulate(odd, 0);
#endif
}
int main() {
  cilk_for (int k = 0; k < 4; k++) add(k);
  return sums[0] == 0;
}
