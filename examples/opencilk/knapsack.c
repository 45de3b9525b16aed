#include <stdio.h>
#include <cilk/cilk.h>

struct item { int value; int weight; };

struct item items[] = { {60, 10}, {100, 20}, {120, 30}, {70, 15}, {40, 7}, {90, 18}, {30, 4}, {55, 12} };

int max(int a, int b) { return a > b ? a : b; }

int knapsack(int i, int n, int room) {
  if (i == n) return 0;
  int without = cilk_spawn knapsack(i + 1, n, room);
  int with = 0;
  if (items[i].weight <= room)
    with = items[i].value + knapsack(i + 1, n, room - items[i].weight);
  cilk_sync;
  return max(with, without);
}

int main(void) {
  printf("%d\n", knapsack(0, sizeof(items) / sizeof(items[0]), 50));
  return 0;
}
