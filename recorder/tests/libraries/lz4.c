// lz4: gcc race-free, race: lib/lz4.c
#include <cilk/cilk.h>
#include <string.h>
#include "lib/lz4.h"
enum { BYTES = 600 };
static char text[3][BYTES], packed[3][2 * BYTES], again[3][BYTES];
static void pack(int k) {
  for (int i = 0; i < BYTES; i++) text[k][i] = (char)('a' + i * k % 7);
#ifdef RACY
  char *to = packed[0];
#else
  char *to = packed[k];
#endif
  int n = LZ4_compress_default(text[k], to, BYTES, 2 * BYTES);
  LZ4_decompress_safe(to, again[k], n, BYTES);
}
int main(void) {
  for (int k = 0; k < 3; k++) cilk_spawn pack(k);
  cilk_sync;
  return memcmp(text[2], again[2], BYTES);
}
