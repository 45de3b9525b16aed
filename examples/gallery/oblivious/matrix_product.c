#include <cilk/cilk.h>
// The product of two square matrices. The input is their side n, then both matrices, row by row.
// In parallel: the rows of the product, and the elements of a row; each turn writes its own element.
// Depends on number 0 alone: whatever the matrices hold, the same events happen.
// Shows the last element; the result is the sum of all.
// Checked against the product by lists (tools/gallery_answers.py).
int a[400], b[400], c[400];

int main() {
  int n = input(0);
  for (int i = 0; i < n * n; i++) {
    a[i] = input(1 + i);
    b[i] = input(1 + n * n + i);
  }
  cilk_for (int row = 0; row < n; row++) {
    cilk_for (int column = 0; column < n; column++) {
      int sum = 0;
      for (int k = 0; k < n; k++) {
        sum += a[n * row + k] * b[n * k + column];
      }
      c[n * row + column] = sum;
    }
  }
  int total = 0;
  for (int i = 0; i < n * n; i++) {
    total += c[i];
  }
  print(c[n * n - 1]);
  return total;
}
