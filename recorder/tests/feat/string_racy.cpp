// expect race
#include <cilk/cilk.h>
#include <string>
std::string s; void add() { s += "x"; }
int main() { cilk_spawn add(); add(); cilk_sync; return s.size(); }
