// libfmt-dev: g++ race-free, race
#define FMT_HEADER_ONLY
#include <cilk/cilk.h>
#include <fmt/format.h>
#include <string>
static std::string lines[4];
static void line(int k) {
#ifdef RACY
  fmt::format_to(std::back_inserter(lines[0]), "{:>5} {:.3f} {}\n", k, k / 3.0, "text");
#else
  fmt::format_to(std::back_inserter(lines[k]), "{:>5} {:.3f} {}\n", k, k / 3.0, "text");
#endif
}
int main() {
  for (int k = 0; k < 4; k++) cilk_spawn line(k);
  cilk_sync;
  return lines[0].empty();
}
