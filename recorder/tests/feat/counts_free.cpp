// Copies of one shared_ptr in several strands: its counts are atomic, so they don't race, whatever one thread may do.
#include <cilk/cilk.h>
#include <memory>
#include <vector>
static std::vector<std::shared_ptr<int>> copies(4);
static void hold(int k, std::shared_ptr<int> p) { copies[k] = p; }
int main() {
  auto p = std::make_shared<int>(7);
  for (int k = 0; k < 4; k++) cilk_spawn hold(k, p);
  std::shared_ptr<int> q = p;
  cilk_sync;
  return *q - 7;
}
