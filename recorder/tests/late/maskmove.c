// unseen: an operation of vectors by a mask
#include <cilk/cilk.h>
#include <immintrin.h>
char row[8];
void set(void) { row[5] = 1; }
void move(void) { _mm_maskmove_si64(_mm_set1_pi8(2), _mm_set1_pi8(-1), row); _mm_empty(); }
int main(void) { cilk_spawn set(); move(); cilk_sync; return row[5] - 2; }
