#include <stdio.h>
#include <cilk/cilk.h>

#define N 24
#define STEPS 10

double u[2][N][N];

int main(void) {
  for (int i = 0; i < N; i++) u[0][i][0] = u[1][i][0] = 100.0;
  for (int t = 0; t < STEPS; t++) {
    int from = t & 1, to = !from;
    cilk_for (int i = 1; i < N - 1; i++) {
      for (int j = 1; j < N - 1; j++)
        u[to][i][j] = u[from][i][j] + 0.125 * (u[from][i - 1][j] + u[from][i + 1][j]
          + u[from][i][j - 1] + u[from][i][j + 1] - 4 * u[from][i][j]);
    }
  }
  for (int i = 0; i < N; i++) printf("%f\n", u[STEPS & 1][N / 2][i]);
  return 0;
}
