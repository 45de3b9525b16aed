// Streams and strings in memory that two strands share.
#include <cilk/cilk.h>
#include <iostream>
#include <sstream>
#include <string>
#ifndef WHICH
#define WHICH 0
#endif
static std::ostringstream out;
static std::istringstream in("12 word 13");
static std::string text = "some text", word;
static int number;
static void first() {
  switch (WHICH) {
  case 0: out << 1; break;
  case 1: out << "one"; break;
  case 2: text[2] = 'x'; break;
  case 3: in >> number; break;
  case 4: in >> word; break;
  case 5: text[3] = 'y'; break;
  case 6: out << 2.5; break;
  }
}
static void second() {
  switch (WHICH) {
  case 0: out << 2; break;
  case 1: out << std::string("two"); break;
  case 2: std::cout << text << '\n'; break;
  case 3: number = 3; break;
  case 4: word = "other"; break;
  case 5: number = (int)text.find("text"); break;
  case 6: number = (int)out.str().size(); break;
  }
}
int main() { cilk_spawn first(); second(); cilk_sync; }
