// libcereal-dev: g++ race-free, race
#include <cilk/cilk.h>
#include <cereal/archives/binary.hpp>
#include <cereal/types/string.hpp>
#include <cereal/types/vector.hpp>
#include <sstream>
struct Record {
  int id; std::string name; std::vector<double> values;
  template <class Archive> void serialize(Archive &a) { a(id, name, values); }
};
static std::string made[3];
static Record all = {0, "shared", {1, 2}};
static void save(int k) {
  std::ostringstream out;
  cereal::BinaryOutputArchive archive(out);
#ifdef RACY
  all.id = k;
  archive(all);
#else
  Record own = {k, "own", {1, 2, 3}};
  archive(own);
#endif
  made[k] = out.str();
}
int main() {
  for (int k = 0; k < 3; k++) cilk_spawn save(k);
  cilk_sync;
  return made[0].empty();
}
