// libutfcpp-dev: g++ race-free, race
#include <cilk/cilk.h>
#include <string>
#include <utf8.h>
static std::u16string wide[3];
static std::string given = "gr\xc3\xbc\xc3\x9f dich";
static void turn(int k) {
  utf8::utf8to16(given.begin(), given.end(), std::back_inserter(wide[k]));
#ifdef RACY
  utf8::append(0x20AC, std::back_inserter(given));
#endif
}
int main() {
  for (int k = 0; k < 3; k++) cilk_spawn turn(k);
  cilk_sync;
  return wide[1].empty();
}
