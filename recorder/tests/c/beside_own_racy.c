/* Beside a thread-local variable there is a shared one. */
#include <cilk/cilk.h>
#include <errno.h>
static _Thread_local int scratch;
static int last;
static void note(int k) { scratch = k; errno = k; last = scratch; }
int main(void) {
  cilk_spawn note(1);
  note(2);
  cilk_sync;
  return 0;
}
