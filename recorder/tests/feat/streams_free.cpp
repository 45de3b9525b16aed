// Streams of each strand's own, and those of the standard, which have locks of their own.
#include <cilk/cilk.h>
#include <iostream>
#include <sstream>
#include <string>
static std::string line(int k) {
  std::ostringstream out;
  out << "line " << k << ' ' << 0.5 * k << std::string(3, '.') << '\n';
  std::istringstream in(out.str());
  std::string word;
  int n = 0;
  in >> word >> n;
  std::cout << word + std::to_string(n) + "\n";
  return n == k ? out.str() : "";
}
int main() {
  std::string a = cilk_spawn line(1);
  std::string b = line(22);
  cilk_sync;
  return a.size() + b.size() != 33;
}
