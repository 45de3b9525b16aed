/* A recording is the program without OpenMP, though cilk_for is compiled by it. */
#include <cilk/cilk.h>
#ifdef _OPENMP
#include <omp.h>
static int count(void) { return omp_get_max_threads(); }
#else
static int count(void) { return 1; }
#endif
static int a[4];
int main(void) {
  cilk_for (int i = 0; i < 4; i++) a[i] = count();
  return a[3] != 1;
}
