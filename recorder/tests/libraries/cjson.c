// cjson: gcc race, race: cJSON.c
// As it is it races: cJSON_Parse writes `global_error`, as its README says.
#include <cilk/cilk.h>
#include <stdio.h>
#include "cJSON.h"
static cJSON *parts[3];
static int last;
static void parse(int k) {
  char text[80];
  snprintf(text, sizeof text, "{\"name\": \"part %d\", \"list\": [1, 2.5, true, null]}", k);
  parts[k] = cJSON_Parse(text);
#ifdef RACY
  last = k;
#endif
}
int main(void) {
  for (int k = 0; k < 3; k++) cilk_spawn parse(k);
  cilk_sync;
  return last + cJSON_GetArraySize(cJSON_GetObjectItem(parts[1], "list")) - 4 - last;
}
