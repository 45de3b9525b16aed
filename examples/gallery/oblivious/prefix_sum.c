#include <cilk/cilk.h>
// Replaces each of at most 256 numbers by the sum of all up to it.
// In parallel: the halves of each range, twice: on the way up each range's sum goes into a tree, on the way down each
// half is told what is before it. A tree's node k has the halves 2 k and 2 k + 1.
// Depends on no number.
// Shows the first, a middle and the last sum; the result is the sum of the sums.
// Checked against Python's `accumulate` (tools/gallery_answers.py).
int a[256], tree[512];

int up(int node, int from, int to) {
  if (to - from == 1) {
    tree[node] = a[from];
    return a[from];
  }
  int middle = from + (to - from) / 2;
  int left = cilk_spawn up(2 * node, from, middle);
  int right = up(2 * node + 1, middle, to);
  cilk_sync;
  tree[node] = left + right;
  return left + right;
}

void down(int node, int from, int to, int before) {
  if (to - from == 1) {
    a[from] += before;
    return;
  }
  int middle = from + (to - from) / 2;
  cilk_spawn down(2 * node, from, middle, before);
  down(2 * node + 1, middle, to, before + tree[2 * node]);
}

int main() {
  int n = input_count();
  for (int i = 0; i < n; i++) {
    a[i] = input(i);
  }
  up(1, 0, n);
  down(1, 0, n, 0);
  print(a[0]);
  print(a[n / 2]);
  print(a[n - 1]);
  int sum = 0;
  for (int i = 0; i < n; i++) {
    sum += a[i];
  }
  return sum;
}
