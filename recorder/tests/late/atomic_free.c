// Atomic operations, fences and inline assembly of all sizes where nothing is parallel: no part of a verdict.
#include <cilk/cilk.h>
#include <stdatomic.h>
#include <stdio.h>
static int a[2];
static _Atomic unsigned char b;
static _Atomic short s;
static atomic_int n;
static _Atomic long m;
static void set(int k) { a[k] = k; }
static long all(void) {
  int seven = 7;
  unsigned low, high;
  b++, s -= 2, n |= 12, m ^= 5;
  atomic_compare_exchange_strong(&n, &seven, 8);
  if (!atomic_compare_exchange_strong(&n, &seven, 100) || atomic_exchange(&m, 50) != 5) return -1;
  atomic_thread_fence(memory_order_seq_cst);
  __asm__ volatile("cpuid" : "=a"(low), "=b"(high) : "a"(0), "c"(0) : "edx");
  register long given __asm__("r10") = 40;
  long got;
  __asm__("leaq 2(%1), %0" : "=r"(got) : "r"(given));
  return b + s + n + m + got;
}
int main(void) {
  long before = all();
  cilk_spawn set(0);
  set(1);
  cilk_sync;
  printf("%ld %d\n", before, a[1]);
  return before != 1 - 2 + 100 + 50 + 42 || a[1] != 1;
}
