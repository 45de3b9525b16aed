#include <stdio.h>
#include <stdlib.h>
#include <cilk/cilk.h>

#define DEFAULT_SIZE 6
#define BLOCK 2

typedef double Block[BLOCK][BLOCK];

double m[DEFAULT_SIZE][DEFAULT_SIZE];

static void init_matrix(int n) {
  for (int i = 0; i < n; i++) {
    for (int j = 0; j < n; j++)
      m[i][j] = (double)((i * 7 + j * 3) % 10);
    m[i][i] += 10.0;
  }
}

void lu(int n) {
  for (int k = 0; k < n; k++) {
    double pivot = m[k][k];
    if (pivot == 0) {
      fprintf(stderr, "zero pivot\n");
      exit(1);
    }
    cilk_for (int i = k + 1; i < n; i++) {
      m[i][k] /= pivot;
      for (int j = k + 1; j < n; j++)
        m[i][j] -= m[i][k] * m[k][j];
    }
  }
}

int main(int argc, char *argv[]) {
  int n = DEFAULT_SIZE;
  init_matrix(n);
  lu(n);
  double det = 1.0;
  for (int i = 0; i < n; i++) det *= m[i][i];
  printf("det = %f\n", det);
  return EXIT_SUCCESS;
}
