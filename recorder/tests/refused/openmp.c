// cilkrec: openmp.c:5: `#pragma omp` with -fopenmp: of OpenMP only cilk_for's loops are recorded
#include <cilk/cilk.h>
int a[9];
int main(void) {
#pragma omp parallel for
  for (int i = 0; i < 9; i++) a[i] = i;
  return 0;
}
