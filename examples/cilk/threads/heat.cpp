// ../heat.cpp with threads: halves of the rows in threads, four at a time. With -DRACY each step reads and writes one
// plate.
#include <array>
#include <cstdio>
#include <thread>

namespace {

constexpr int size = 64, steps = 6;
using Plate = std::array<std::array<double, size>, size>;
Plate plates[2];

void spread(const Plate &from, Plate &to, int low, int high) {
  if (high - low > size / 4) {
    int middle = (low + high) / 2;
    std::thread child([&from, &to, low, middle] { spread(from, to, low, middle); });
    spread(from, to, middle, high);
    child.join();
    return;
  }
  for (int i = low; i < high; i++)
    for (int j = 1; j < size - 1; j++) {
      double here = from[i][j];
      double round = from[i - 1][j] + from[i + 1][j] + from[i][j - 1] + from[i][j + 1];
      to[i][j] = here + 0.125 * (round - 4 * here);
    }
}

} // namespace

int main() {
  for (int i = 0; i < size; i++) plates[0][i][0] = plates[1][i][0] = 100;
  for (int step = 0; step < steps; step++) {
    Plate &from = plates[step % 2];
#ifdef RACY
    Plate &to = from;
#else
    Plate &to = plates[1 - step % 2];
#endif
    spread(from, to, 1, size - 1);
  }
  std::printf("%.4f\n", plates[steps % 2][size / 2][1]);
}
