// unseen: an operation of vectors by a mask
#include <cilk/cilk.h>
#include <immintrin.h>
static int row[16];
static void set(void) { row[5] = 1; }
__attribute__((target("avx512f"))) static void move(void) {
  __m512i places = _mm512_set1_epi32(5), two = _mm512_set1_epi32(2);
  _mm512_mask_i32scatter_epi32(row, 0x1, places, two, 4);
}
int main(void) {
  cilk_spawn set();
  move();
  cilk_sync;
  return row[5] - 2;
}
