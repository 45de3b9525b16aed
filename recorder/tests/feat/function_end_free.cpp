// What a function spawns may use its variables to its end: the implicit sync comes before their destructors.
#include <cilk/cilk.h>
#include <string>
#include <vector>
#ifndef WHICH
#define WHICH 0
#endif
static int sum;
static void add(const std::vector<int> &v) { sum += v[0]; }
static void falls() {
  std::vector<int> v(3, 1);
  cilk_spawn add(v);
}
static int returns(int n) {
  std::vector<int> v(3, n);
  cilk_spawn add(v);
  if (n > 1) return n;
  std::string more(40, 'x');
  for (int i = 0; i < n; i++)
    switch (i) {
    case 0: return 1;
    default: return (int)more.size();
    }
  return {3};
}
static std::vector<int> gives(bool swapped) {
  std::vector<int> v(3, 1), w(2, 2);
  cilk_spawn add(w);
  if (swapped) return {4, 5};
  return v;
}
static int scope() {
  cilk_scope {
    std::vector<int> v(3, 1);
    cilk_spawn add(v);
  }
  cilk_scope {
    std::vector<int> v(3, 1);
    cilk_spawn add(v);
    cilk_scope {
      std::string more(40, 'y');
      return (int)more.size();
    }
  }
}
struct Owner {
  std::vector<int> own{1, 2};
  ~Owner() { cilk_spawn add(own); }
};
int main() {
  switch (WHICH) {
  case 0: falls(); break;
  case 1: return returns(2) - 2 + returns(1) - 1 + returns(0) - 3;
  case 2: return gives(true)[0] - 4 + gives(false)[2] - 1;
  case 3: return scope() - 40;
  case 4: { Owner o; break; }
  case 5: {
    auto lambda = [&](int n) -> int { std::vector<int> v(3, n); cilk_spawn add(v); return v[1]; };
    auto other = [] { std::vector<int> v(3, 1); cilk_spawn add(v); };
    other();
    return lambda(7) - 7;
  }
  }
  return 0;
}
