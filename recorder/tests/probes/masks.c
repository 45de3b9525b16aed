// Loads, stores and gathers by the masks of AVX and AVX2, beside writes of elements that the mask has, and of others.
#include <cilk/cilk.h>
#include <immintrin.h>
#include <stdlib.h>
static float f[32] __attribute__((aligned(64))); static double d[16]; static int n[16]; static long l[16]; static char b[16];
static void set(void) { f[5] = 1, d[2] = 1, n[6] = 1, l[1] = 1, b[3] = 1; }
#define PROBE(K) case K:
#define A __attribute__((target("avx2"))) static
A int use(int k, int racy) {
  __m256i m8 = racy ? _mm256_setr_epi32(0, 0, 0, 0, 0, -1, -1, 0) : _mm256_setr_epi32(-1, -1, -1, -1, -1, 0, 0, -1);
  __m256i m4 = racy ? _mm256_setr_epi64x(0, -1, -1, 0) : _mm256_setr_epi64x(-1, 0, 0, -1);
  __m128i m2 = racy ? _mm_setr_epi32(0, 0, -1, -1) : _mm_setr_epi32(-1, -1, 0, 0);
  __m256i i8 = racy ? _mm256_setr_epi32(1, 2, 3, 4, 5, 6, 7, 8) : _mm256_setr_epi32(0, 1, 2, 3, 4, 7, 8, 9);
  __m128i i4 = racy ? _mm_setr_epi32(0, 1, 2, 3) : _mm_setr_epi32(0, 3, 4, 7);
  switch (k) {
PROBE(0) return (int)_mm256_cvtss_f32(_mm256_maskload_ps(f, m8));
PROBE(1) _mm256_maskstore_ps(f, m8, _mm256_set1_ps(2)); return 0;
PROBE(2) return (int)_mm256_cvtsd_f64(_mm256_maskload_pd(d, m4));
PROBE(3) _mm256_maskstore_pd(d, m4, _mm256_set1_pd(2)); return 0;
PROBE(4) return _mm_cvtsi128_si32(_mm_maskload_epi32(n + 4, m2));
PROBE(5) _mm_maskstore_epi32(n + 4, m2, m2); return 0;
PROBE(6) return _mm_cvtsi128_si32(_mm256_castsi256_si128(_mm256_maskload_epi64((void *)l, m4)));
PROBE(7) return (int)_mm256_cvtss_f32(_mm256_i32gather_ps(f, i8, 4));
PROBE(8) return (int)_mm256_cvtsd_f64(_mm256_i32gather_pd(d, i4, 8));
PROBE(9) return _mm_cvtsi128_si32(_mm256_castsi256_si128(_mm256_mask_i32gather_epi32(m8, n, i8, m8, 4)));
PROBE(10) return (int)_mm_cvtss_f32(_mm256_i64gather_ps(f + 2, racy ? _mm256_setr_epi64x(0, 1, 2, 3) :
    _mm256_setr_epi64x(0, 1, 2, 4), 4));
PROBE(11) return _mm_cvtsi128_si32(_mm_i64gather_epi64((void *)l, racy ? _mm_set_epi64x(1, 0) :
    _mm_set_epi64x(2, 0), 8));
PROBE(12) _mm_maskmoveu_si128(m2, racy ? _mm_setr_epi8(0, 0, 0, -1, 0, 0, 0, 0, 0, 0, 0, 0, 0, 0, 0, 0) :
    _mm_set1_epi64x(0x80), b); return 0;
PROBE(13) _mm_stream_ps(f + (racy ? 4 : 8), _mm_set1_ps(1)); return 0;
PROBE(14) return _mm_cvtsi128_si32(_mm_i32gather_epi32(n, _mm_setr_epi32(0, 1, 2, racy ? 6 : 7), 4));
  }
  return 0;
}
int main(int n, char **words) {
  if (n < 3) return 0;
  cilk_spawn set();
  use(atoi(words[1]), words[2][0] == 'r');
  cilk_sync;
  return 0;
}
