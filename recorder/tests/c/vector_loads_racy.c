// Loads that a compiler knows by heart, beside a write of one of their bytes.
#include <cilk/cilk.h>
#include <immintrin.h>
#ifndef WHICH
#define WHICH 0
#endif
static char row[64] __attribute__((aligned(64)));
static void set(void) { row[5] = 1; }
__attribute__((target("avx2"))) static int load(void) {
  switch (WHICH) {
  case 0: return _mm_cvtsi128_si32(_mm_lddqu_si128((void *)row));
  case 1: return _mm_cvtsi128_si32(_mm256_castsi256_si128(_mm256_lddqu_si256((void *)row)));
  case 2: return _mm_cvtsi128_si32(_mm_loadu_si128((void *)row));
  case 3: return (int)_mm_cvtss_f32(_mm_loadu_ps((void *)(row + 4)));
  case 4: return _mm_cvtsi128_si32(_mm_stream_load_si128((void *)row));
  }
  return 0;
}
int main(void) { cilk_spawn set(); int k = load(); cilk_sync; return k & 0; }
