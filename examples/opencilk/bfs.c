#include <stdio.h>
#include <stdlib.h>
#include <cilk/cilk.h>

#define N 64
#define DEGREE 3
enum { FAR = -1 };

typedef struct { int to[DEGREE]; } vertex;
vertex graph[N];
int dist[N], fresh[N];

void zero(void *v) { *(int *)v = 0; }
void plus(void *l, void *r) { *(int *)l += *(int *)r; }

int main(void) {
  for (int v = 0; v < N; v++) {
    graph[v].to[0] = (v + 1) % N;
    graph[v].to[1] = (v * 5 + 3) % N;
    graph[v].to[2] = (v * 7 + 2) % N;
    dist[v] = FAR;
  }
  dist[0] = 0;
  int level = 0;
  do {
    int cilk_reducer(zero, plus) reached = 0;
    cilk_for (int v = 0; v < N; v++) {
      fresh[v] = 0;
      if (dist[v] != FAR) continue;
      for (int e = 0; e < DEGREE; e++)
        if (dist[graph[v].to[e]] == level) { fresh[v] = 1; break; }
      reached += fresh[v];
    }
    level++;
    cilk_for (int v = 0; v < N; v++)
      if (fresh[v]) dist[v] = level;
    if (!reached) break;
  } while (1);
  for (int v = 0; v < N; v++) printf("%d ", dist[v]);
  return 0;
}
