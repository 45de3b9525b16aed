#include <cilk/cilk.h>
// A Fourier transform of 64 numbers modulo 257: number k of it is the sum of input(i) times 81 to the power i k.
// In parallel: the pairs of a step. A step reads one array and writes another, which is then copied.
// Depends on no number.
// Shows the first two and the last; the result is the sum of all, each times its place from 1.
// Checked against the sums that define it (tools/gallery_answers.py).
int a[64], b[64];

int power(int base, int exponent) {
  int product = 1;
  while (exponent > 0) {
    if (exponent % 2 == 1) product = product * base % 257;
    base = base * base % 257;
    exponent = exponent / 2;
  }
  return product;
}

int reversed(int place) {
  int other = 0;
  for (int bit = 1; bit < 64; bit = 2 * bit) {
    other = 2 * other + place / bit % 2;
  }
  return other;
}

int main() {
  for (int i = 0; i < 64; i++) {
    int from;
    from = reversed(i);
    a[i] = (input(from) % 257 + 257) % 257;
  }
  for (int half = 1; half < 64; half = 2 * half) {
    int root;
    root = power(3, 128 / half);
    cilk_for (int i = 0; i < 32; i++) {
      int j = i / half * 2 * half + i % half;
      int turned;
      turned = power(root, i % half);
      int x = a[j], y = a[j + half] * turned % 257;
      b[j] = (x + y) % 257;
      b[j + half] = (x - y + 257) % 257;
    }
    cilk_for (int i = 0; i < 64; i++) {
      a[i] = b[i];
    }
  }
  print(a[0]);
  print(a[1]);
  print(a[63]);
  int check = 0;
  for (int i = 0; i < 64; i++) {
    check += (i + 1) * a[i];
  }
  return check;
}
