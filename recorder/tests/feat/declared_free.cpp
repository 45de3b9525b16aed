// expect race-free
#include <cilk/cilk.h>
#include <string>
#include <vector>
std::string mk(const std::string &s, int k) { return s + std::to_string(k); }
template <class T> T twice(T x) { return x + x; }
struct S { int a[3]; int get(int k) { return a[k]; } int both() { int x = cilk_spawn get(1); auto y = cilk_spawn get(2); cilk_sync; a[0] = cilk_spawn get(2); cilk_sync; return x + y; } };
int main() { std::string t = "abc"; std::string s = cilk_spawn mk(t + "xyz", 3); const auto d = cilk_spawn twice<double>(2.0); long q = cilk_spawn twice<int>(3); cilk_sync; S v{{1,2,3}}; return s.size() + (int)d + q + v.both(); }
