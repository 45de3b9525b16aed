// Heat that spreads over a plate, step by step, by halves of its rows. Each step reads one plate and writes another.
// With -DRACY it reads and writes one, so a row may see its neighbour's old or new values.
#include <cilk/cilk.h>

#include <array>
#include <cstdio>

#ifndef N
#define N 12
#endif
#ifndef STEPS
#define STEPS 6
#endif

namespace {

using Plate = std::array<std::array<double, N>, N>;
Plate plates[2];

void spread(const Plate &from, Plate &to, int low, int high) {
  if (high - low > 2) {
    int middle = (low + high) / 2;
    cilk_spawn spread(from, to, low, middle);
    spread(from, to, middle, high);
    cilk_sync;
    return;
  }
  for (int i = low; i < high; i++)
    for (int j = 1; j < N - 1; j++) {
      double here = from[i][j];
      double round = from[i - 1][j] + from[i + 1][j] + from[i][j - 1] + from[i][j + 1];
      to[i][j] = here + 0.125 * (round - 4 * here);
    }
}

} // namespace

int main() {
  for (int i = 0; i < N; i++) plates[0][i][0] = plates[1][i][0] = 100;
  for (int step = 0; step < STEPS; step++) {
    Plate &from = plates[step % 2];
#ifdef RACY
    Plate &to = from;
#else
    Plate &to = plates[1 - step % 2];
#endif
    spread(from, to, 1, N - 1);
  }
  std::printf("%.4f\n", plates[STEPS % 2][N / 2][1]);
  return 0;
}
