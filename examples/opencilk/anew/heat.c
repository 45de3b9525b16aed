#include <stdio.h>
#include <stdlib.h>
#include <cilk/cilk.h>

int nx = 10, ny = 10, nt = 4;

double **even, **odd;

double randa(int x, int y) {
  return x == 0 || y == 0 ? 100.0 : 0.0;
}

void allcgrid(double ***grid) {
  *grid = (double **) malloc(nx * sizeof(double *));
  for (int x = 0; x < nx; x++)
    (*grid)[x] = (double *) calloc(ny, sizeof(double));
}

void diffuse(double **out, double **in, int lb, int ub) {
  if (ub - lb <= 2) {
    for (int x = lb; x < ub; x++)
      for (int y = 1; y < ny - 1; y++)
        out[x][y] = 0.25 * (in[x - 1][y] + in[x + 1][y] + in[x][y - 1] + in[x][y + 1]);
    return;
  }
  cilk_spawn diffuse(out, in, lb, (lb + ub) / 2);
  diffuse(out, in, (lb + ub) / 2, ub);
  cilk_sync;
}

int main(int argc, char *argv[]) {
  allcgrid(&even);
  allcgrid(&odd);
  for (int x = 0; x < nx; x++)
    for (int y = 0; y < ny; y++)
      even[x][y] = odd[x][y] = randa(x, y);
  for (int c = 1; c <= nt; c++)
    if (c % 2)
      diffuse(odd, even, 1, nx - 1);
    else
      diffuse(even, odd, 1, nx - 1);
  printf("%g\n", even[1][1]);
  return 0;
}
