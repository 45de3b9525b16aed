// libboost-dev: g++ race-free, race
#include <boost/numeric/ublas/matrix_proxy.hpp>
#include <boost/numeric/ublas/matrix.hpp>
#include <cilk/cilk.h>
using namespace boost::numeric::ublas;
static matrix<double> a(6, 6, 1), b(6, 6, 2), c(6, 6, 0);
static void part(int from, int to) {
  noalias(project(c, range(from, to), range(0, 6))) += prod(project(a, range(from, to), range(0, 6)), b);
}
int main() {
  cilk_spawn part(0, 3);
#ifdef RACY
  part(2, 6);
#else
  part(3, 6);
#endif
  cilk_sync;
  return c(5, 5) != 12;
}
