// libboost-dev: g++ race-free, race
#include <boost/graph/adjacency_list.hpp>
#include <boost/graph/breadth_first_search.hpp>
#include <boost/graph/dijkstra_shortest_paths.hpp>
#include <cilk/cilk.h>
#include <vector>
using Graph = boost::adjacency_list<boost::vecS, boost::vecS, boost::directedS, boost::no_property,
                                    boost::property<boost::edge_weight_t, int>>;
static Graph g(12);
static std::vector<int> far[3];
static void search(int k) {
#ifdef RACY
  far[0].assign(12, 0);
#endif
  far[k].resize(12);
  boost::dijkstra_shortest_paths(g, k, boost::distance_map(&far[k][0]));
}
int main() {
  for (int k = 0; k < 12; k++) boost::add_edge(k, (k * 5 + 1) % 12, k + 1, g);
  for (int k = 0; k < 3; k++) cilk_spawn search(k);
  cilk_sync;
  return far[0][0];
}
