// What a static variable's initialiser does to other variables is done by one strand like anything else.
#include <cilk/cilk.h>
static int made;
static int count() { return ++made; }
static int look() { static int first = count(); return first; }
int main() {
  int a = cilk_spawn look();
  made = 5;
  cilk_sync;
  return a == 9;
}
