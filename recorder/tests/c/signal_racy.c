// A signal's handler is part of the strand in which it runs: a signal orders nothing.
#include <cilk/cilk.h>
#include <signal.h>
static volatile int n;
static void handle(int k) { n = k; }
static void tell(void) { raise(SIGUSR1); }
int main(void) { signal(SIGUSR1, handle); cilk_spawn tell(); int now = n; cilk_sync; return now - SIGUSR1; }
