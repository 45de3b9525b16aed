#include <stdio.h>
#include <cilk/cilk.h>

#define N 64
#define DEGREE 3

int edge[N][DEGREE];
int dist[N];
int frontier[2][N];

int main(void) {
  for (int v = 0; v < N; v++) {
    edge[v][0] = (v + 1) % N;
    edge[v][1] = (v * 5 + 3) % N;
    edge[v][2] = (v * 7 + 2) % N;
    dist[v] = -1;
  }
  int size = 1, level = 0;
  dist[0] = 0;
  frontier[0][0] = 0;
  while (size > 0) {
    int *now = frontier[level % 2], *next = frontier[1 - level % 2];
    int count = 0;
    level++;
    cilk_for (int i = 0; i < size; i++) {
      int v = now[i];
      for (int e = 0; e < DEGREE; e++) {
        int w = edge[v][e];
        if (dist[w] == -1) {
          dist[w] = level;
          next[count++] = w;
        }
      }
    }
    size = count;
  }
  for (int v = 0; v < N; v++) printf("%d\n", dist[v]);
  return level - 1;
}
