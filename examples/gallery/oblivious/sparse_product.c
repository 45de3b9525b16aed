#include <cilk/cilk.h>
// A sparse matrix times a vector. The input is the number n of rows, how many elements aren't 0, where each row begins
// among them (n + 1 numbers), the column of each, the value of each, then the vector.
// In parallel: the rows; each turn writes its own element of the product.
// Depends on numbers 0 to 19, the shape of the matrix: on no value of it, and not on the vector.
// Shows the product; the result is its sum.
// Checked against the product of a whole matrix (tools/gallery_answers.py).
int product[64];

int main() {
  int n = input(0), count = input(1);
  cilk_for (int row = 0; row < n; row++) {
    int sum = 0;
    for (int k = input(2 + row); k < input(3 + row); k++) {
      sum += input(3 + n + count + k) * input(3 + n + 2 * count + input(3 + n + k));
    }
    product[row] = sum;
  }
  int total = 0;
  for (int row = 0; row < n; row++) {
    print(product[row]);
    total += product[row];
  }
  return total;
}
