// Products of matrices by Strassen's seven products of quarters, each spawned into a matrix of its own. With -DRACY two
// of them go into one.
#include <cilk/cilk.h>

#include <cstdio>
#include <vector>

#ifndef N
#define N 8
#endif

namespace {

constexpr int small = 4;

class Matrix {
public:
  explicit Matrix(int n) : n(n), values(static_cast<std::size_t>(n * n)) {}
  double &at(int i, int j) { return values[static_cast<std::size_t>(i * n + j)]; }
  double at(int i, int j) const { return values[static_cast<std::size_t>(i * n + j)]; }
  int size() const { return n; }

  Matrix quarter(int row, int column) const {
    Matrix q(n / 2);
    for (int i = 0; i < n / 2; i++)
      for (int j = 0; j < n / 2; j++) q.at(i, j) = at(row * n / 2 + i, column * n / 2 + j);
    return q;
  }

private:
  int n;
  std::vector<double> values;
};

// x + sign * y.
Matrix sum(const Matrix &x, const Matrix &y, double sign = 1) {
  Matrix z(x.size());
  for (int i = 0; i < x.size(); i++)
    for (int j = 0; j < x.size(); j++) z.at(i, j) = x.at(i, j) + sign * y.at(i, j);
  return z;
}

void multiply(const Matrix &x, const Matrix &y, Matrix &z);

// The arguments are copies: the spawned call owns them.
void product(Matrix x, Matrix y, Matrix &z) { multiply(x, y, z); }

void multiply(const Matrix &x, const Matrix &y, Matrix &z) {
  int n = x.size(), h = n / 2;
  if (n <= small) {
    for (int i = 0; i < n; i++)
      for (int j = 0; j < n; j++) {
        double s = 0;
        for (int k = 0; k < n; k++) s += x.at(i, k) * y.at(k, j);
        z.at(i, j) = s;
      }
    return;
  }
  Matrix a = x.quarter(0, 0), b = x.quarter(0, 1), c = x.quarter(1, 0), d = x.quarter(1, 1);
  Matrix e = y.quarter(0, 0), f = y.quarter(0, 1), g = y.quarter(1, 0), i = y.quarter(1, 1);
  std::vector<Matrix> p(7, Matrix(h));
  cilk_spawn product(sum(a, d), sum(e, i), p[0]);
  cilk_spawn product(sum(c, d), e, p[1]);
  cilk_spawn product(a, sum(f, i, -1), p[2]);
  cilk_spawn product(d, sum(g, e, -1), p[3]);
  cilk_spawn product(sum(a, b), i, p[4]);
  cilk_spawn product(sum(c, a, -1), sum(e, f), p[5]);
#ifdef RACY
  product(sum(b, d, -1), sum(g, i), p[5]);
#else
  product(sum(b, d, -1), sum(g, i), p[6]);
#endif
  cilk_sync;
  cilk_for (int r = 0; r < h; r++)
    for (int s = 0; s < h; s++) {
      z.at(r, s) = p[0].at(r, s) + p[3].at(r, s) - p[4].at(r, s) + p[6].at(r, s);
      z.at(r, s + h) = p[2].at(r, s) + p[4].at(r, s);
      z.at(r + h, s) = p[1].at(r, s) + p[3].at(r, s);
      z.at(r + h, s + h) = p[0].at(r, s) - p[1].at(r, s) + p[2].at(r, s) + p[5].at(r, s);
    }
}

} // namespace

int main() {
  Matrix x(N), y(N), z(N);
  for (int i = 0; i < N; i++)
    for (int j = 0; j < N; j++) {
      x.at(i, j) = i + j;
      y.at(i, j) = i - j;
    }
  multiply(x, y, z);
  std::printf("%g\n", z.at(N - 1, N - 1));
  return 0;
}
