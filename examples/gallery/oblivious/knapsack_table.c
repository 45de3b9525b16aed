#include <cilk/cilk.h>
// The most that things in a knapsack are worth, by a table over all weights, without branches on worths. The input is
// how many things there are, what the knapsack holds, then for each thing its worth and weight.
// In parallel: the weights, for one thing after the other. A step reads one table and writes the other.
// Depends on numbers 0 and 1 and the weights, 3, 5, 7 and so on: on no worth.
// The result is the greatest worth.
// Checked against all choices (tools/gallery_answers.py).
int best[200], next[200];

int main() {
  int things = input(0), room = input(1);
  for (int t = 0; t < things; t++) {
    int worth = input(2 + 2 * t), weight = input(3 + 2 * t);
    cilk_for (int w = 0; w < room + 1; w++) {
      int without = best[w];
      int with = without;
      if (weight <= w) with = best[w - weight] + worth;
      next[w] = without + (with > without) * (with - without);
    }
    cilk_for (int w = 0; w < room + 1; w++) {
      best[w] = next[w];
    }
  }
  return best[room];
}
