// libboost-dev: g++ race-free, race
#include <algorithm>
#include <boost/container/flat_map.hpp>
#include <boost/container/small_vector.hpp>
#include <boost/sort/spreadsort/integer_sort.hpp>
#include <cilk/cilk.h>
#include <vector>
#ifndef NUMBERS
#define NUMBERS 2000
#endif
static std::vector<int> all(NUMBERS), room(NUMBERS);
static boost::container::flat_map<int, int> counts;
static void sort(int from, int to) {
  if (to - from > 1000) {
    int middle = (from + to) / 2;
    cilk_spawn sort(from, middle);
    sort(middle, to);
    cilk_sync;
    std::merge(all.begin() + from, all.begin() + middle, all.begin() + middle, all.begin() + to, room.begin() + from);
    std::copy(room.begin() + from, room.begin() + to, all.begin() + from);
    return;
  }
  boost::sort::spreadsort::integer_sort(all.begin() + from, all.begin() + to);
  boost::container::small_vector<int, 4> few(all.begin() + from, all.begin() + from + 8);
#ifdef RACY
  counts[from] = few.back();
#endif
}
int main() {
  for (int k = 0; k < NUMBERS; k++) all[k] = static_cast<int>(k * 7919L % 1000003);
  sort(0, NUMBERS);
  return !std::is_sorted(all.begin(), all.end());
}
