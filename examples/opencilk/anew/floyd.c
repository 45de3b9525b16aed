#include <stdio.h>
#include <limits.h>
#include <cilk/cilk.h>

#define V 6
#define INF INT_MAX
#define min(a, b) ((a) < (b) ? (a) : (b))

int graph[V][V] = {
  {0, 7, INF, INF, 2, INF},
  {INF, 0, 1, INF, INF, 3},
  {4, INF, 0, 5, INF, INF},
  {INF, 2, INF, 0, INF, 1},
  {INF, 3, 8, INF, 0, INF},
  {6, INF, INF, 2, INF, 0},
};

void floyd_warshall(void) {
  for (int k = 0; k < V; k++)
    cilk_for (int i = 0; i < V; i++)
      cilk_for (int j = 0; j < V; j++)
        if (graph[i][k] != INF && graph[k][j] != INF)
          graph[i][j] = min(graph[i][j], graph[i][k] + graph[k][j]);
}

int main() {
  floyd_warshall();
  for (int i = 0; i < V; i++) {
    for (int j = 0; j < V; j++)
      printf("%4d", graph[i][j]);
    printf("\n");
  }
}
