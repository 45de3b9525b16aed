/* Attributes that hide nothing here; and a static variable with a name of libc's. */
#include <cilk/cilk.h>
#include <stdlib.h>
static int index = 1, read;
static char text[8] = "123";
__attribute__((no_sanitize("undefined"))) static void set(int k) { text[index] = (char)('0' + k), read = 0; }
int main(void) { cilk_spawn set(1); int n = atoi(text); cilk_sync; return n + read == 0; }
