/* Functions of libc by their names in the compiler. */
#include <cilk/cilk.h>
#ifndef WHICH
#define WHICH 0
#endif
char a[64], b[64] = "some text of b";
static void touch(void) {
  switch (WHICH) {
  case 0: __builtin_memset(a, 1, 8); break;
  case 1: __builtin_memset(a, 1, 40); break;
  case 2: __builtin_memcpy(a, b, 16); break;
  case 3: __builtin_memmove(a, a + 1, 24); break;
  case 4: __builtin_strcpy(a, "abcdefgh"); break;
  case 5: __builtin_strncpy(a, b, 9); break;
  case 6: __builtin_strcat(a, "0123456789"); break;
  case 7: __builtin_bzero(a, 8); break;
  }
}
int main(void) { cilk_spawn touch(); int x = a[7]; cilk_sync; return x > 200; }
