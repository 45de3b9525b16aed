// expect race-free
// Views that are objects with memory of their own.
#include <cilk/cilk.h>
#include <cilk/opadd_reducer.h>
#include <cilk/reducer_list.h>
#include <string>
cilk::reducer_list_append<int> all; cilk::opadd_reducer<std::string> text;
void put(int k) { all.push_back(k); text += std::string("longer than what a string holds itself ") + char('a' + k); }
int main() { cilk_for (int i = 0; i < 6; i++) put(i); return all.get_value().size() != 6 || text.get_value().size() != 240; }
