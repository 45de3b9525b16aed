// unseen: inline assembly
#include <cilk/cilk.h>
int n;
void add(void) { __asm__ volatile("" ::: "memory"); __asm__ volatile("incl %0" : "+m"(n)); }
int main(void) { cilk_spawn add(); cilk_sync; return n - 1; }
