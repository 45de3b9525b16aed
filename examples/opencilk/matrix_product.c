#include <stdio.h>
#include <cilk/cilk.h>

#define N 16

int A[N][N], B[N][N], C[N][N];

int main(void) {
  for (int i = 0; i < N; i++)
    for (int j = 0; j < N; j++) {
      A[i][j] = i + j;
      B[i][j] = i - j;
    }
  cilk_for (int i = 0; i < N; i++) {
    cilk_for (int j = 0; j < N; j++) {
      int sum = 0;
      for (int k = 0; k < N; k++)
        sum += A[i][k] * B[k][j];
      C[i][j] = sum;
    }
  }
  printf("%d\n", C[N - 1][N - 1]);
  return 0;
}
