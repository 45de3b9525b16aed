// expect race-free
#include <cilk/cilk.h>
int out[4];
int main() { for (int k = 0; k < 4; k++) cilk_spawn [=]() { out[k] = k; }(); cilk_sync; return out[2]; }
