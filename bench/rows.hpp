// What the programs that measure tables share: the nodes of a table, the clock, and a sum of lengths.
#pragma once
#include <algorithm>
#include <cstdint>
#include <cstdio>
#include <cstdlib>
#include <cstring>
#include <ctime>
#include <vector>

struct Nodes {
    std::vector<std::uint32_t> sources, targets;
};

// SOURCES and TARGETS nodes of a kind: random ones; near ones, drawn from twenty times as many neighbouring numbers; or random
// sources and all nodes.
inline Nodes nodes_for(const char *kind, std::uint32_t nodes, std::size_t sources, std::size_t targets) {
    std::uint64_t state = 42;
    auto drawn = [&](std::uint64_t below) {
        state = state * 6364136223846793005u + 1442695040888963407u;
        return (state >> 33) % below;
    };
    Nodes made;
    std::uint64_t from = 0, room = nodes;
    if (std::strcmp(kind, "near") == 0) {
        room = sources * 20 < nodes ? sources * 20 : nodes;
        from = drawn(nodes - room + 1);
    }
    for (std::size_t each = 0; each < sources; each++) made.sources.push_back(static_cast<std::uint32_t>(from + drawn(room)));
    if (std::strcmp(kind, "all") == 0) {
        for (std::uint32_t node = 0; node < nodes; node++) made.targets.push_back(node);
        return made;
    }
    for (std::size_t each = 0; each < targets; each++) made.targets.push_back(static_cast<std::uint32_t>(from + drawn(room)));
    return made;
}

// Milliseconds of the processor, or of the clock.
inline double milliseconds(bool of_processor) {
    timespec time;
    clock_gettime(of_processor ? CLOCK_PROCESS_CPUTIME_ID : CLOCK_MONOTONIC, &time);
    return static_cast<double>(time.tv_sec) * 1e3 + static_cast<double>(time.tv_nsec) / 1e6;
}

inline std::vector<unsigned char> bytes_of(const char *name) {
    std::FILE *file = std::fopen(name, "rb");
    if (file == nullptr) {
        std::perror(name);
        std::exit(2);
    }
    std::fseek(file, 0, SEEK_END);
    std::vector<unsigned char> bytes(static_cast<std::size_t>(std::ftell(file)));
    std::rewind(file);
    if (std::fread(bytes.data(), 1, bytes.size(), file) != bytes.size()) std::exit(2);
    std::fclose(file);
    return bytes;
}

// The median, or 0 of nothing.
inline double median(std::vector<double> taken) {
    if (taken.empty()) return 0;
    std::sort(taken.begin(), taken.end());
    return taken[taken.size() / 2];
}

inline unsigned long long sum_of(const std::vector<std::uint64_t> &cells) {
    std::uint64_t sum = 0;
    for (std::uint64_t cell : cells) sum = sum * 31 + cell;
    return sum;
}
