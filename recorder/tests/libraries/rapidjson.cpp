// rapidjson-dev: g++ race-free, race
#include <cilk/cilk.h>
#include <cstdio>
#include <rapidjson/document.h>
#include <rapidjson/stringbuffer.h>
#include <rapidjson/writer.h>
static rapidjson::StringBuffer made[3];
static void write(int k) {
  rapidjson::Document d;
  d.Parse("{\"a\": [1, 2, 3], \"b\": \"text\"}");
  d["a"][1].SetInt(k);
#ifdef RACY
  k = 0;
#endif
  rapidjson::Writer<rapidjson::StringBuffer> writer(made[k]);
  d.Accept(writer);
}
int main() {
  for (int k = 0; k < 3; k++) cilk_spawn write(k);
  cilk_sync;
  return made[0].GetSize() == 0;
}
