// uthash-dev: gcc race-free, race
#include <cilk/cilk.h>
#include <stdlib.h>
#include <uthash.h>
struct row { int key, value; UT_hash_handle hh; };
static struct row *tables[4];
static void fill(int k) {
  struct row **to = &tables[k];
#ifdef RACY
  to = &tables[k / 2];
#endif
  for (int n = 0; n < 20; n++) {
    struct row *r = malloc(sizeof *r);
    r->key = n * 4 + k, r->value = n;
    HASH_ADD_INT(*to, key, r);
  }
}
int main(void) {
  for (int k = 0; k < 4; k++) cilk_spawn fill(k);
  cilk_sync;
  struct row *r;
  int key = 8;
  HASH_FIND_INT(tables[0], &key, r);
  return !r;
}
