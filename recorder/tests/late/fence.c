// unseen: an atomic operation
#include <cilk/cilk.h>
void f(void) {}
int main(void) { cilk_spawn f(); __sync_synchronize(); cilk_sync; return 0; }
