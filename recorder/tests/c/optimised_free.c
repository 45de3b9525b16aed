/* Locals of functions that a compiler puts into others: each call has its own, beside spawns and in them. */
#include <cilk/cilk.h>
#include <string.h>
#ifndef WHICH
#define WHICH 0
#endif
static int sums[8], x;
static void fill(int *to, int k) { for (int i = 0; i < 8; i++) to[i] = k; }
static int sum(int k) {
  int own[8], all = 0;
  fill(own, k);
  for (int i = 0; i < 8; i++) all += own[i];
  return all;
}
static void put(int *to, int k) { *to = sum(k); }
static void twice(int k) {
  cilk_spawn put(&sums[k], k);
  put(&sums[k + 1], k);
  cilk_sync;
}
static void (*const by_name)(int *, int) = put;
int main(void) {
  switch (WHICH) {
  case 0: for (int k = 0; k < 8; k++) cilk_spawn put(&sums[k], sum(k)); cilk_sync; break;
  case 1: cilk_for (int k = 0; k < 8; k++) sums[k] = sum(k) + sum(k + 1); break;
  case 2: cilk_spawn twice(0); twice(2); x = sum(3); cilk_sync; twice(0); break;
  case 3: cilk_spawn by_name(&sums[0], 1); by_name(&sums[1], sum(2)); cilk_sync; break;
  }
  return 0;
}
