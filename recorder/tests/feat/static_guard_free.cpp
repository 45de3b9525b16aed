// expect race-free
#include <cilk/cilk.h>
#include <cstdlib>
int f(int k) { static int first = rand(); return first + k; }
int main() { int a = f(0); int x = cilk_spawn f(1); int y = f(2); cilk_sync; return a * 0 + x * 0 + y * 0; }
