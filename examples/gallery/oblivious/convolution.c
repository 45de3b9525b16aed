#include <cilk/cilk.h>
// A signal filtered by a kernel: each sum of as many neighbours, each times its number of the kernel. The input is both
// lengths, the signal, then the kernel.
// In parallel: the sums; each turn writes its own.
// Depends on numbers 0 and 1, the lengths.
// Shows the first and the last sum; the result is the sum of all.
// Checked against the sums over lists (tools/gallery_answers.py).
int sums[200];

int main() {
  int length = input(0), width = input(1);
  int count = length - width + 1;
  cilk_for (int i = 0; i < count; i++) {
    int sum = 0;
    for (int j = 0; j < width; j++) {
      sum += input(2 + i + j) * input(2 + length + j);
    }
    sums[i] = sum;
  }
  print(sums[0]);
  print(sums[count - 1]);
  int total = 0;
  for (int i = 0; i < count; i++) {
    total += sums[i];
  }
  return total;
}
