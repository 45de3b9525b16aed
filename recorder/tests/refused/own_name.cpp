// cilkrec: own_name.cpp:5: __PRETTY_FUNCTION__ in a statement with cilk_spawn
#include <cilk/cilk.h>
void say(const char *) {}
int main() {
  cilk_spawn say(__PRETTY_FUNCTION__);
  cilk_sync;
}
