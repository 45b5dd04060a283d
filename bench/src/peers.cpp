// Boost Graph's algorithms over one set of cards, for the benchmark to call.
#include <algorithm>
#include <cstddef>
#include <cstdlib>
#include <functional>
#include <limits>
#include <vector>

#include <boost/graph/adjacency_list.hpp>
#include <boost/graph/bellman_ford_shortest_paths.hpp>
#include <boost/graph/floyd_warshall_shortest.hpp>

namespace {

using Cost = boost::property<boost::edge_weight_t, int>;
using Graph = boost::adjacency_list<boost::vecS, boost::vecS, boost::directedS, boost::no_property, Cost>;

constexpr int NONE = std::numeric_limits<int>::max();

// A flat matrix of distances.
struct Rows {
    int *first;
    std::size_t n;
    int *operator[](std::size_t row) const { return first + row * n; }
};

struct Smaller {
    int operator()(int a, int b) const { return std::min(a, b); }
};

template <class Compare, class Combine>
void floyd(const Graph *graph, int *distances, Compare compare, Combine combine, int none, int unit) {
    Rows rows{distances, num_vertices(*graph)};
    boost::floyd_warshall_all_pairs_shortest_paths(*graph, rows, get(boost::edge_weight, *graph), compare, combine,
                                                   none, unit);
}

} // namespace

extern "C" {

Graph *boost_new(std::size_t n, const int *from, const int *to, const int *cost, std::size_t cards) {
    Graph *graph = new Graph(n);
    for (std::size_t k = 0; k < cards; k++)
        add_edge(from[k], to[k], Cost(cost[k]), *graph);
    return graph;
}

// These write n * n distances: INT_MAX (delay) or 0 (depth) where there is no walk.

// As Boost does it where it is not told how.
void boost_floyd(const Graph *graph, int *distances) {
    floyd(graph, distances, std::less<int>(), boost::closed_plus<int>(NONE), NONE, 0);
}

// Boost does not combine where a distance is NONE, so that sums need not look for it.
void boost_floyd_plus(const Graph *graph, int *distances) {
    floyd(graph, distances, std::less<int>(), std::plus<int>(), NONE, 0);
}

void boost_floyd_depth(const Graph *graph, int *distances) {
    floyd(graph, distances, std::greater<int>(), Smaller(), 0, 255);
}

// Writes the n distances from one source alone, in the source's row.
void boost_bellman(Graph *graph, std::size_t source, int *distances) {
    std::size_t n = num_vertices(*graph);
    int *row = distances + source * n;
    std::fill_n(row, n, NONE);
    row[source] = 0;
    bool found = boost::bellman_ford_shortest_paths(*graph, n, get(boost::edge_weight, *graph),
                                                    boost::dummy_property_map(), row, boost::closed_plus<int>(NONE),
                                                    std::less<int>(), boost::default_bellman_visitor());
    if (!found)
        std::abort();
}
}
