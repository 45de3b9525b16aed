#include <stdio.h>
#include <stdlib.h>
#include <limits.h>
#include <cilk/cilk.h>

struct item {
  int value;
  int weight;
};

int best_so_far = INT_MIN;

int compare(struct item *a, struct item *b) {
  double c = ((double) a->value / a->weight) - ((double) b->value / b->weight);
  if (c > 0) return -1;
  if (c < 0) return 1;
  return 0;
}

int knapsack(struct item *e, int c, int n, int v) {
  int with, without, best;
  double ub;

  if (c < 0) return INT_MIN;
  if (n == 0 || c == 0) return v;

  ub = (double) v + c * e->value / e->weight;
  if (ub < best_so_far) return INT_MIN;

  without = cilk_spawn knapsack(e + 1, c, n - 1, v);
  with = knapsack(e + 1, c - e->weight, n - 1, v + e->value);
  cilk_sync;

  best = with > without ? with : without;
  if (best > best_so_far) best_so_far = best;
  return best;
}

struct item items[] = {
  { 60, 10 }, { 100, 20 }, { 120, 30 }, { 30, 6 }, { 14, 4 },
};

int main() {
  int n = sizeof(items) / sizeof(items[0]);
  qsort(items, n, sizeof(struct item), (int (*)(const void *, const void *)) compare);
  printf("%d\n", knapsack(items, 50, n, 0));
}
