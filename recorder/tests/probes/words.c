// Functions of libc that look at a part of a text: what lies behind it is another strand's.
#define _GNU_SOURCE
#include <cilk/cilk.h>
#include <stdbool.h>
#include <stdlib.h>
#include <string.h>
#include <wchar.h>
#define PROBE(K, CHILD, RACY, FREE) \
  static void child##K(void) { CHILD; } \
  static void probe##K(bool racy) { cilk_spawn child##K(); if (racy) { RACY; } else { FREE; } cilk_sync; }

static char number[32] = " 1.5 1234567890 klmnop", words[32] = "--ab--,cd,ef", *left;
static wchar_t wide[12] = L"abcdefghij";
static int sum;
PROBE(0, number[8] = 'x', sum = atof(number + 4), sum = (int)atof(number))
PROBE(1, number[4] = 'x', sum = (int)atof(number), sum = (int)atof(number + 5))
PROBE(2, words[10] = 'x', char *t = strtok(words + 10, ","); sum = *t, char *t = strtok(words, ","); sum = *t)
PROBE(3, words[6] = 'x', char *t = strtok(words, ","); sum = *t, char *t = strtok(words, "-"); sum = *t)
PROBE(4, words[0] = 'x', char *t = strtok(words, "-"); sum = *t, char *t = strtok(words + 1, ","); sum = *t)
PROBE(5, words[10] = 'x', left = words + 7; strtok_r(NULL, "-", &left), left = words; strtok_r(NULL, ",", &left))
PROBE(6, words[10] = 'x', left = words + 7; strtok_r(NULL, ",", &left); strtok_r(NULL, ",", &left),
      left = words + 7; strtok_r(NULL, ",", &left))
PROBE(7, wide[8] = 'x', sum = wcschr(wide, 'j') != 0, sum = wcschr(wide, 'b') != 0)
PROBE(8, wide[8] = 'x', sum = wmemchr(wide, 'j', 10) != 0, sum = wmemchr(wide, 'h', 10) != 0)

int main(int n, char **w) {
  static void (*const all[])(bool) = {probe0, probe1, probe2, probe3, probe4, probe5, probe6, probe7, probe8};
  if (n < 3) return 1;
  all[atoi(w[1])](w[2][0] == 'r');
  return 0;
}
