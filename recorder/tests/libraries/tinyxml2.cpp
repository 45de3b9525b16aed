// tinyxml2: g++ race-free, race: tinyxml2.cpp
#include <cilk/cilk.h>
#include <string>
#include "tinyxml2.h"
static tinyxml2::XMLDocument parts[3], shared;
static void parse(int k) {
  std::string text = "<part n='" + std::to_string(k) + "'><name>one</name><empty/></part>";
  parts[k].Parse(text.c_str());
#ifdef RACY
  shared.InsertEndChild(shared.NewElement("part"));
#endif
}
int main() {
  for (int k = 0; k < 3; k++) cilk_spawn parse(k);
  cilk_sync;
  return parts[2].RootElement()->IntAttribute("n") - 2;
}
