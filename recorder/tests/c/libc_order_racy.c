/* A stream that one strand closes while another one may still write to it. */
#include <cilk/cilk.h>
#include <stdio.h>
static FILE *f;
static void put(void) { fputc('x', f); }
int main(void) {
  f = fopen("/dev/null", "w");
  cilk_spawn put();
  fclose(f);
  cilk_sync;
  return 0;
}
