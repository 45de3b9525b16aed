// expect race-free
#include <cilk/cilk.h>
#include <vector>
#include <string>
int out[4];
void f(std::vector<int> v, int k) { v[0] += k; out[k] = v[0]; }
int main() { std::vector<int> v(3); for (int k = 0; k < 4; k++) cilk_spawn f(v, k); cilk_sync; return out[2]; }
