/* errno and thread-local variables are each thread's own. */
#include <cilk/cilk.h>
#include <errno.h>
#include <stdlib.h>
static _Thread_local int scratch[8];
static __thread long calls;
static int parse(const char *s) {
  errno = 0;
  for (int i = 0; i < 8; i++) scratch[i] = s[0] + i;
  calls++;
  long x = strtol(s, NULL, 10);
  return errno ? -1 : (int)x + scratch[7] - scratch[0];
}
int main(void) {
  int a, b;
  a = cilk_spawn parse("12");
  b = parse("30");
  cilk_sync;
  return a + b != 56;
}
