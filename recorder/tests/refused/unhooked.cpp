// cilkrec: unhooked.cpp:4: attribute no_instrument_function
#include <cilk/cilk.h>
int g;
[[gnu::no_instrument_function]] void set(int k) { g = k; }
int main() { cilk_spawn set(1); g = 2; cilk_sync; }
