// The search of the Boost Graph Library, to compare times with: boost_search NETWORK.gr NETWORK.pairs
//
// `dijkstra_shortest_paths` over a compressed graph, ended by a visitor when the target is settled. It takes
// well-formed texts alone, and prints a line `r S T LENGTH` or `n S T` for each pair; arcs aren't counted.
#include <boost/graph/compressed_sparse_row_graph.hpp>
#include <boost/graph/dijkstra_shortest_paths.hpp>
#include <chrono>
#include <cstdint>
#include <cstdio>
#include <limits>
#include <utility>
#include <vector>

using Clock = std::chrono::steady_clock;
struct Weighted {
    std::uint64_t weight;
};
using Graph = boost::compressed_sparse_row_graph<boost::directedS, boost::no_property, Weighted>;
using Node = boost::graph_traits<Graph>::vertex_descriptor;

struct Reached {};
struct UntilReached : boost::default_dijkstra_visitor {
    Node target;
    explicit UntilReached(Node target) : target(target) {}
    void examine_vertex(Node node, const Graph &) const {
        if (node == target) throw Reached{};
    }
};

static double seconds_since(Clock::time_point start) {
    return std::chrono::duration<double>(Clock::now() - start).count();
}

int main(int argc, char **argv) {
    if (argc != 3) return 2;
    auto start = Clock::now();
    std::FILE *text = std::fopen(argv[1], "r");
    std::FILE *queries = std::fopen(argv[2], "r");
    if (!text || !queries) return 7;
    char line[256];
    std::uint32_t nodes = 0;
    std::vector<std::pair<std::uint32_t, std::uint32_t>> arcs;
    std::vector<Weighted> weights;
    while (std::fgets(line, sizeof line, text)) {
        std::uint32_t u, v, w;
        if (std::sscanf(line, "a %u %u %u", &u, &v, &w) == 3) {
            arcs.push_back({u - 1, v - 1});
            weights.push_back({w});
        } else {
            std::sscanf(line, "p sp %u", &nodes);
        }
    }
    Graph graph(boost::edges_are_unsorted_multi_pass, arcs.begin(), arcs.end(), weights.begin(), nodes);
    std::fprintf(stderr, "read %.3f s\n", seconds_since(start));
    start = Clock::now();
    const std::uint64_t none = std::numeric_limits<std::uint64_t>::max();
    std::vector<std::uint64_t> label(nodes);
    std::vector<Node> before(nodes);
    auto index = boost::get(boost::vertex_index, graph);
    std::size_t pairs = 0;
    while (std::fgets(line, sizeof line, queries)) {
        std::uint32_t s, t;
        if (std::sscanf(line, "q %u %u", &s, &t) != 2) continue;
        ++pairs;
        try {
            boost::dijkstra_shortest_paths(
                graph, s - 1,
                boost::weight_map(boost::get(&Weighted::weight, graph))
                    .distance_map(boost::make_iterator_property_map(label.begin(), index))
                    .predecessor_map(boost::make_iterator_property_map(before.begin(), index))
                    .distance_inf(none)
                    .visitor(UntilReached(t - 1)));
        } catch (const Reached &) {
        }
        if (label[t - 1] == none) std::printf("n %u %u\n", s, t);
        else std::printf("r %u %u %lu\n", s, t, label[t - 1]);
    }
    std::fprintf(stderr, "search %.6f s, %zu pairs\n", seconds_since(start), pairs);
}
