// The plain search in C++, to compare answers and times with: plain_search NETWORK.gr NETWORK.pairs
//
// Dijkstra's algorithm with std::priority_queue and lazy deletion over a compressed adjacency, made once. It takes
// well-formed texts alone, and prints a line `r S T LENGTH ARCS` or `n S T` for each pair: the least length, and the
// fewest arcs of all walks of that length.
#include <chrono>
#include <cstdint>
#include <cstdio>
#include <queue>
#include <vector>

using Clock = std::chrono::steady_clock;

// A weight, a number of arcs and a node as one number, in 64, 32 and 32 bits: so costs, whose node is 0, are added and
// compared as pairs are.
using Entry = unsigned __int128;

static Entry cost_of(uint64_t weight, uint32_t arcs) { return Entry{weight} << 64 | uint64_t{arcs} << 32; }

static double seconds_since(Clock::time_point start) {
    return std::chrono::duration<double>(Clock::now() - start).count();
}

int main(int argc, char **argv) {
    if (argc != 3) return 2;
    auto start = Clock::now();
    std::FILE *graph = std::fopen(argv[1], "r");
    std::FILE *queries = std::fopen(argv[2], "r");
    if (!graph || !queries) return 7;
    char line[256];
    uint32_t nodes = 0;
    std::vector<uint32_t> from, to, weight;
    while (std::fgets(line, sizeof line, graph)) {
        uint32_t u, v, w;
        uint64_t arcs;
        if (std::sscanf(line, "a %u %u %u", &u, &v, &w) == 3) {
            from.push_back(u - 1), to.push_back(v - 1), weight.push_back(w);
        } else if (std::sscanf(line, "p sp %u %lu", &nodes, &arcs) == 2) {
            from.reserve(arcs), to.reserve(arcs), weight.reserve(arcs);
        }
    }
    std::vector<uint32_t> first(nodes + 2), head(to.size()), cost(to.size());
    for (uint32_t u : from) ++first[u + 2];
    for (uint32_t u = 2; u < nodes + 2; ++u) first[u] += first[u - 1];
    for (size_t k = 0; k < to.size(); ++k) {
        uint32_t at = first[from[k] + 1]++;
        head[at] = to[k], cost[at] = weight[k];
    }
    std::fprintf(stderr, "read %.3f s\n", seconds_since(start));
    start = Clock::now();
    const Entry none = cost_of(UINT64_MAX, 0);
    std::vector<Entry> label(nodes, none);
    std::vector<uint32_t> touched;
    size_t pairs = 0;
    while (std::fgets(line, sizeof line, queries)) {
        uint32_t s, t;
        if (std::sscanf(line, "q %u %u", &s, &t) != 2) continue;
        ++pairs;
        for (uint32_t u : touched) label[u] = none;
        touched.clear();
        std::priority_queue<Entry, std::vector<Entry>, std::greater<Entry>> queue;
        label[s - 1] = 0, touched.push_back(s - 1), queue.push(s - 1);
        while (!queue.empty()) {
            uint32_t u = static_cast<uint32_t>(queue.top());
            Entry c = queue.top() - u;
            queue.pop();
            if (c > label[u]) continue;
            if (u == t - 1) break;
            for (uint32_t at = first[u]; at < first[u + 1]; ++at) {
                Entry d = c + cost_of(cost[at], 1);
                uint32_t v = head[at];
                if (d >= label[v]) continue;
                if (label[v] == none) touched.push_back(v);
                label[v] = d, queue.push(d | v);
            }
        }
        Entry c = label[t - 1];
        if (c == none) std::printf("n %u %u\n", s, t);
        else std::printf("r %u %u %lu %lu\n", s, t, static_cast<uint64_t>(c >> 64), static_cast<uint64_t>(c) >> 32);
    }
    std::fprintf(stderr, "search %.6f s, %zu pairs\n", seconds_since(start), pairs);
}
