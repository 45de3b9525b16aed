#include <stdio.h>
#include <stdlib.h>
#include <cilk/cilk.h>

int64_t fib(int64_t n) {
  if (n < 2) return n;
  int64_t x, y;
  cilk_scope {
    x = cilk_spawn fib(n - 1);
    y = fib(n - 2);
  }
  return x + y;
}

int main(int argc, char *argv[]) {
  int n = 16;
  if (argc > 1) n = atoi(argv[1]);
  printf("fib(%d) = %ld\n", n, fib(n));
  return 0;
}
