#include <stdio.h>
#include <cilk/cilk.h>

int a[1000], tree[4096];

int up(int node, int lo, int hi) {
  if (hi - lo == 1) return tree[node] = a[lo];
  int mid = lo + (hi - lo) / 2;
  int left = cilk_spawn up(2 * node, lo, mid);
  int right = up(2 * node + 1, mid, hi);
  cilk_sync;
  return tree[node] = left + right;
}

void down(int node, int lo, int hi, int before) {
  if (hi - lo == 1) { a[lo] += before; return; }
  int mid = lo + (hi - lo) / 2;
  cilk_spawn down(2 * node, lo, mid, before);
  down(2 * node + 1, mid, hi, before + tree[2 * node]);
}

int main(void) {
  int n = 1000;
  cilk_for (int i = 0; i < n; i++) a[i] = i * i % 10;
  up(1, 0, n);
  down(1, 0, n, 0);
  printf("%d %d\n", a[0], a[n - 1]);
  return 0;
}
