#include <stdio.h>
#include <stdlib.h>
#include <string.h>
#include <cilk/cilk.h>
#include <stdatomic.h>

#define MAXV 16

typedef struct graph {
  int nv;
  int offsets[MAXV + 1];
  int edges[64];
} graph;

int parallel_bfs(const graph *g, int source, int *dist) {
  int frontier[MAXV], next[MAXV];
  int nf = 1, level = 0;
  for (int v = 0; v < g->nv; v++) dist[v] = -1;
  dist[source] = 0;
  frontier[0] = source;
  while (nf > 0) {
    int nn = 0;
    level++;
    cilk_for (int i = 0; i < nf; i++) {
      int v = frontier[i];
      for (int e = g->offsets[v]; e < g->offsets[v + 1]; e++) {
        int w = g->edges[e];
        if (dist[w] == -1) {
          dist[w] = level;
          next[nn++] = w;
        }
      }
    }
    memcpy(frontier, next, nn * sizeof(int));
    nf = nn;
  }
  return level;
}

int main(int argc, char *argv[]) {
  graph g;
  int dist[MAXV];
  g.nv = 9;
  int e = 0;
  for (int v = 0; v < 9; v++) {
    g.offsets[v] = e;
    if (v % 3 < 2) g.edges[e++] = v + 1;
    if (v < 6) g.edges[e++] = v + 3;
  }
  g.offsets[9] = e;
  parallel_bfs(&g, 0, dist);
  for (int v = 0; v < 9; v++) printf("%d ", dist[v]);
  putchar('\n');
  return 0;
}
