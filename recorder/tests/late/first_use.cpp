// unseen: what a static variable's initialiser writes elsewhere
#include <cilk/cilk.h>
static int table[8];
static int look(int k) {
  static const bool is_ready = [] { for (int i = 0; i < 8; i++) table[i] = i * i; return true; }();
  return is_ready ? table[k] : 0;
}
int main() {
  int a = cilk_spawn look(3);
  int b = look(4);
  cilk_sync;
  return a + b - 25;
}
