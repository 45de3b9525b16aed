/* libc's functions on memory of each strand's own, on what all only read, and on parts that they don't reach. */
#define _GNU_SOURCE
#include <cilk/cilk.h>
#include <stdio.h>
#include <stdlib.h>
#include <string.h>
#include <time.h>
static const char *const names = "alpha beta gamma";
static char apart[32] = "12 4\0apart";
static int work(int k) {
  char text[64], word[16], *end;
  int n = 0, used = 0;
  snprintf(text, sizeof text, "%-6s|%4d|%5.2f|%c%%|%p", "ab", k, 0.5 * k, 'x', (void *)names);
  sscanf("41 word 3.5", "%d %15s%n", &n, word, &used);
  char *copy = strdup(names), *save = NULL, *part = strtok_r(copy, " ", &save);
  while (part) n += (int)strlen(part), part = strtok_r(NULL, " ", &save);
  n += (int)strtol("12abc", &end, 10) + (int)(strchr(names, 'g') - names) + memcmp(text, "ab", 2) + (*end == 'a');
  time_t now = 0;
  struct tm t;
  gmtime_r(&now, &t);
  strftime(text, sizeof text, "%Y-%m-%d", &t);
  char *big = NULL;
  if (asprintf(&big, "%s %s", text, word) < 0) abort();
  n += (int)strlen(big) + atoi(text) + used;
  printf("%s %d\n", big, n);
  free(big);
  free(copy);
  return n;
}
static int front(void) { return atoi(apart) + strncmp(apart, "12 4", 9); }
static void back(void) { apart[5] = 'A', apart[30] = 1; }
int main(void) {
  int a, b, c;
  a = cilk_spawn work(1);
  b = cilk_spawn front();
  back();
  c = work(1);
  cilk_sync;
  return a != c || b != 12;
}
