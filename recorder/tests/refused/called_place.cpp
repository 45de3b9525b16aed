// cilkrec: called_place.cpp:5: a call on the left of cilk_spawn
#include <cilk/cilk.h>
int a[3], count;
int next() { return count++; }
int main() { a[next()] = cilk_spawn next(); cilk_sync; return a[0]; }
