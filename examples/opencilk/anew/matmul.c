#include <stdio.h>
#include <cilk/cilk.h>

#define N 8
#define THRESHOLD 4

double A[N][N], B[N][N], C[N][N];

void mm_base(double *restrict c, int n_C, double *restrict a, int n_A,
             double *restrict b, int n_B, int n) {
  for (int i = 0; i < n; i++)
    for (int k = 0; k < n; k++)
      for (int j = 0; j < n; j++)
        c[i * n_C + j] += a[i * n_A + k] * b[k * n_B + j];
}

void mm_dac(double *restrict c, int n_C, double *restrict a, int n_A,
            double *restrict b, int n_B, int n) {
  if (n <= THRESHOLD) {
    mm_base(c, n_C, a, n_A, b, n_B, n);
    return;
  }
  int h = n / 2;
  cilk_scope {
    cilk_spawn mm_dac(c, n_C, a, n_A, b, n_B, h);
    cilk_spawn mm_dac(c + h, n_C, a, n_A, b + h, n_B, h);
    cilk_spawn mm_dac(c + h * n_C, n_C, a + h * n_A, n_A, b, n_B, h);
    mm_dac(c + h * n_C + h, n_C, a + h * n_A, n_A, b + h, n_B, h);
  }
  cilk_scope {
    cilk_spawn mm_dac(c, n_C, a + h, n_A, b + h * n_B, n_B, h);
    cilk_spawn mm_dac(c + h, n_C, a + h, n_A, b + h * n_B + h, n_B, h);
    cilk_spawn mm_dac(c + h * n_C, n_C, a + h * n_A + h, n_A, b + h * n_B, n_B, h);
    mm_dac(c + h * n_C + h, n_C, a + h * n_A + h, n_A, b + h * n_B + h, n_B, h);
  }
}

int main(int argc, char **argv) {
  cilk_for (int i = 0; i < N; ++i) {
    cilk_for (int j = 0; j < N; ++j) {
      A[i][j] = i + j;
      B[i][j] = i == j ? 2.0 : 0.0;
      C[i][j] = 0.0;
    }
  }
  mm_dac(&C[0][0], N, &A[0][0], N, &B[0][0], N, N);
  printf("%f\n", C[N - 1][N - 1]);
  return 0;
}
