// Breadth-first search of a graph, level by level, against the edges: a vertex that isn't reached yet looks for a
// neighbour that the last level reached, and only its own turn writes to it. The vertices of a level are counted by a
// reducer. With -DRACY vertices of the last level write to their neighbours, and two may write to one.
#include <cilk/cilk.h>
#include <cilk/opadd_reducer.h>

#include <cstdio>
#include <vector>

#ifndef N
#define N 24
#endif

namespace {

constexpr int unreached = -1;

struct Graph {
  explicit Graph(int n) : next(static_cast<std::size_t>(n)), before(static_cast<std::size_t>(n)) {}
  void add(int from, int to) {
    next[static_cast<std::size_t>(from)].push_back(to);
    before[static_cast<std::size_t>(to)].push_back(from);
  }
  int size() const { return static_cast<int>(next.size()); }
  std::vector<std::vector<int>> next, before;
};

// One level: gives the number of vertices that it reached.
int advance(const Graph &graph, const std::vector<int> &now, std::vector<int> &later, int level) {
  cilk::opadd_reducer<int> reached;
  cilk_for (int v = 0; v < graph.size(); v++) {
#ifdef RACY
    if (now[v] == level - 1)
      for (int w : graph.next[v])
        if (now[w] == unreached) {
          later[w] = level;
          reached += 1;
        }
#else
    later[v] = now[v];
    if (now[v] == unreached)
      for (int u : graph.before[v])
        if (now[u] == level - 1) {
          later[v] = level;
          reached += 1;
          break;
        }
#endif
  }
  return reached.get_value();
}

} // namespace

int main() {
  Graph graph(N);
  for (int v = 0; v < graph.size(); v++) {
    graph.add(v, (v * 5 + 3) % graph.size());
    graph.add(v, (v * 7 + 2) % graph.size());
    graph.add(v, (v + 9) % graph.size());
  }
  std::vector<int> now(static_cast<std::size_t>(graph.size()), unreached), later = now;
  now[0] = later[0] = 0;
  int level = 0, count = 1;
  while (int reached = advance(graph, now, later, ++level)) {
    count += reached;
    now = later;
  }
  std::printf("%d vertices in %d levels\n", count, level);
  return 0;
}
