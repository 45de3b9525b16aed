// Two strands under one lock: a lock orders nothing in a trace, so they race.
#include <cilk/cilk.h>
#include <pthread.h>
static pthread_mutex_t lock = PTHREAD_MUTEX_INITIALIZER;
static int n;
static void add(void) { pthread_mutex_lock(&lock), n++, pthread_mutex_unlock(&lock); }
int main(void) { cilk_spawn add(); add(); cilk_sync; return n - 2; }
