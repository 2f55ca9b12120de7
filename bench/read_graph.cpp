// Reads a graph's text by hand and keeps its arcs, to compare the time with: read_graph NETWORK.gr
//
// It tells the first fault of the text as `routecli` does, and else the numbers of nodes and arcs.
#include "text.hpp"

#include <cstdio>
#include <fcntl.h>
#include <sys/stat.h>

int main(int count, char **words) {
    if (count != 2) return 2;
    int file = open(words[1], O_RDONLY);
    struct stat about;
    if (file < 0 || fstat(file, &about) != 0) return 7;
    text::Roads graph;
    try {
        text::read(file, static_cast<std::uint64_t>(about.st_size), graph);
    } catch (const text::Fault &fault) {
        std::fprintf(stderr, "read_graph: graph: %s line %lu\n", fault.kind, fault.line);
        return 3;
    } catch (const text::ReadFailed &) {
        return 7;
    }
    std::printf("%lu nodes, %zu arcs\n", graph.nodes, graph.roads.size());
}
