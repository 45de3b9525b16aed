// zlib: gcc race-free, race: adler32.c compress.c crc32.c deflate.c inffast.c inflate.c inftrees.c trees.c uncompr.c zutil.c
#include <cilk/cilk.h>
#include <string.h>
#include "zlib.h"
#ifndef BYTES
#define BYTES 400
#endif
enum { BLOCKS = 3 };
static unsigned char text[BLOCKS][BYTES], packed[BLOCKS][2 * BYTES], again[BLOCKS][BYTES];
static void pack(int k) {
  for (int i = 0; i < BYTES; i++) text[k][i] = (unsigned char)('a' + i * k % 7);
#ifdef RACY
  unsigned char *to = packed[0];
#else
  unsigned char *to = packed[k];
#endif
  uLongf n = 2 * BYTES, m = BYTES;
  compress(to, &n, text[k], BYTES);
  uncompress(again[k], &m, to, n);
}
int main(void) {
  for (int k = 0; k < BLOCKS; k++) cilk_spawn pack(k);
  cilk_sync;
  return memcmp(text[1], again[1], BYTES);
}
