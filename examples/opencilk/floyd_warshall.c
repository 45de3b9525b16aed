#include <stdio.h>
#include <cilk/cilk.h>

#define N 12
#define INF 1000000000

int d[N][N];

int main(void) {
  for (int i = 0; i < N; i++)
    for (int j = 0; j < N; j++)
      d[i][j] = i == j ? 0 : INF;
  for (int i = 0; i < N; i++) {
    d[i][(i + 1) % N] = 3;
    d[i][(i * 5 + 2) % N] = 7;
  }
  for (int k = 0; k < N; k++)
    cilk_for (int i = 0; i < N; i++)
      for (int j = 0; j < N; j++)
        if (d[i][k] + d[k][j] < d[i][j])
          d[i][j] = d[i][k] + d[k][j];
  for (int j = 0; j < N; j++) printf("%d ", d[0][j]);
  printf("\n");
  return 0;
}
