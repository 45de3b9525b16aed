// libeigen3-dev: g++ race-free, race
#include <cilk/cilk.h>
#define EIGEN_DONT_VECTORIZE
#include <Eigen/Dense>
static Eigen::Matrix3d products[4], sum = Eigen::Matrix3d::Zero();
static void multiply(int k) {
  Eigen::Matrix3d a = Eigen::Matrix3d::Identity() * k, b;
  b << 1, 2, 3, 4, 5, 6, 7, 8, 9;
  products[k] = a * b + b.transpose();
#ifdef RACY
  sum += b;
#endif
}
int main() {
  for (int k = 0; k < 4; k++) cilk_spawn multiply(k);
  cilk_sync;
  return products[2](0, 0) != 3;
}
