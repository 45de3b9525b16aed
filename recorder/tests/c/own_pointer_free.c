// Thread-local memory is taken for each strand's own, also where another strand has a pointer to it: this race isn't seen.
#include <cilk/cilk.h>
static _Thread_local int own;
static void set(int *at) { *at = 1; }
int main(void) { cilk_spawn set(&own); int now = own; cilk_sync; return now - 1; }
