#include <stdio.h>
#include <cilk/cilk.h>

#define N 12
const int P = 10007;

int a[N][N];

int power(int x, int e) {
  if (e == 0) return 1;
  int half = power(x * x % P, e >> 1);
  return e & 1 ? half * x % P : half;
}

int inverse(int x) { return power(x, P - 2); }

int main(void) {
  for (int i = 0; i < N; i++)
    for (int j = 0; j < N; j++)
      a[i][j] = (i * i + 3 * i * j + 7 * j + (i == j ? 11 : 0)) % P;
  for (int k = 0; k < N; k++) {
    int pivot = inverse(a[k][k]);
    cilk_for (int i = k + 1; i < N; i++) {
      a[i][k] = a[i][k] * pivot % P;
      for (int j = k + 1; j < N; j++)
        a[i][j] = ((a[i][j] - a[i][k] * a[k][j]) % P + P) % P;
    }
  }
  int det = 1;
  for (int k = 0; k < N; k++) det = det * a[k][k] % P;
  printf("determinant %d\n", det);
  return 0;
}
