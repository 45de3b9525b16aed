// expect race
#include <cilk/cilk.h>
int g, h; void log() { h++; } int bad(int k) { if (k) throw 1; return g = 2; }
int main() { try { cilk_spawn bad(1); } catch (int) { log(); } cilk_spawn log(); log(); cilk_sync; return 0; }
