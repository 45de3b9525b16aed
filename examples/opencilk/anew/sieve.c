#include <stdio.h>
#include <stdbool.h>
#include <string.h>
#include <math.h>
#include <cilk/cilk.h>

#define LIMIT 500

static bool is_prime[LIMIT + 1];

int main(void) {
  memset(is_prime, true, sizeof is_prime);
  is_prime[0] = is_prime[1] = false;
  const int root = (int) sqrt(LIMIT);
  for (int p = 2; p <= root; ++p) {
    if (!is_prime[p]) continue;
    cilk_for (int q = p * p; q <= LIMIT; q += p)
      is_prime[q] = false;
  }
  size_t count = 0;
  for (int i = 0; i <= LIMIT; ++i)
    count += is_prime[i];
  printf("%zu primes up to %d\n", count, LIMIT);
  return 0;
}
