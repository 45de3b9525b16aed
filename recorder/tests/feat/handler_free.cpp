// expect race-free
#include <cilk/cilk.h>
int g, h; void log() { h++; } int bad(int k) { if (k) throw 1; return g = 2; }
int pass() { int x; x = cilk_spawn bad(1); cilk_sync; return x; }
int main() { for (int i = 0; i < 3; i++) { try { cilk_spawn bad(1); cilk_sync; } catch (int) { log(); } log(); } try { pass(); } catch (int) { log(); } h++; return 0; }
