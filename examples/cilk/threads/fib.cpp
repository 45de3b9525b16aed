// ../fib.c with threads: each spawn is a thread, each sync a join. With -DRACY the sum is taken before the join.
#include <cstdio>
#include <thread>

static long fib(int n) {
  if (n < 2) return n;
  long x = 0;
  std::thread child([&x, n] { x = fib(n - 1); });
  long y = fib(n - 2);
#ifdef RACY
  long sum = x + y;
  child.join();
  return sum;
#else
  child.join();
  return x + y;
#endif
}

int main() { std::printf("fib(10) = %ld\n", fib(10)); }
