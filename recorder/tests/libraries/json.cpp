// nlohmann-json3-dev: g++ race-free, race
#include <cilk/cilk.h>
#include <nlohmann/json.hpp>
#include <string>
using nlohmann::json;
static json parts[4], shared;
static void parse(int k) {
  std::string text = "{\"name\": \"part " + std::to_string(k) + "\", \"list\": [1, 2.5, true, null]}";
  parts[k] = json::parse(text);
#ifdef RACY
  shared["last"] = k;
#endif
}
int main() {
  for (int k = 0; k < 4; k++) cilk_spawn parse(k);
  cilk_sync;
  return (int)parts[2]["list"].size() - 4;
}
