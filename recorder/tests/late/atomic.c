// unseen: an atomic operation
#include <cilk/cilk.h>
#include <stdatomic.h>
atomic_int n;
void add(void) { n++; }
int main(void) { cilk_spawn add(); add(); cilk_sync; return n - 2; }
