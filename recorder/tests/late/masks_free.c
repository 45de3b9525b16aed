// Masks of AVX-512 where nothing is parallel, before a spawn and after a sync: no part of a verdict.
#include <cilk/cilk.h>
#include <immintrin.h>
static int row[16], sum;
static void set(void) { row[5] = 1; }
__attribute__((target("avx512f"))) static void move(int k) {
  int other[16];
  _mm512_mask_storeu_epi32(row, 0x20, _mm512_set1_epi32(k));
  _mm512_mask_storeu_epi32(other, 0x8, _mm512_maskz_loadu_epi32(0x20, row));
  _mm512_mask_i32scatter_epi32(row, 0x2, _mm512_set1_epi32(7), _mm512_set1_epi32(k), 4);
}
int main(void) {
  move(2);
  cilk_spawn set();
  sum = 1;
  cilk_sync;
  move(3);
  return row[5] + row[7] + sum - 7;
}
