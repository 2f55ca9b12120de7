// What the library takes for a table, or for what is reached from a node. In each of the rounds a first call makes a selection, and
// KEPT more use it.
//
//     library_rows HIER KIND SOURCES TARGETS ROUNDS KEPT THREADS [sums]
//
// KIND is random, near or all, and the nodes those of rows.cpp (rows.hpp); or reach, from the first of the sources, with TARGETS
// as the limit or 0 for none. With `sums` each length has a sum of drawn numbers beside it. With several THREADS each has a handle of its own and a part of the sources. It prints the medians
// of milliseconds for the one and for the other, of the processor with one thread and else of the clock, a sum of the lengths,
// and how many there are.
#include "domethyme.h"
#include "rows.hpp"

#include <cstdio>
#include <cstdlib>
#include <thread>
#include <vector>

struct Table {
    bool is_reach;
    std::uint64_t limit;
    Nodes nodes;
    std::vector<std::uint64_t> cells;
    std::vector<domethyme> handles;
    std::vector<std::uint64_t> set;
    std::vector<domethyme_sum_info> sums;

    std::size_t width() const { return cells.size() / nodes.sources.size(); }

    // Asks for a thread's part of the rows.
    void ask(std::size_t thread) {
        std::size_t first = thread * nodes.sources.size() / handles.size(), last = (thread + 1) * nodes.sources.size() / handles.size();
        std::uint64_t *rows = cells.data() + first * width();
        domethyme_seed start = {};
        start.node = nodes.sources[0];
        std::uint32_t code, added = 0;
        if (is_reach && !set.empty()) {
            code = domethyme_reach_sums(&handles[thread], set.data(), set.size(), &start, 1, &added, 1, limit, sums.data(), width());
        } else if (!set.empty()) {
            code = domethyme_table_sums(&handles[thread], set.data(), set.size(), nodes.sources.data() + first, last - first, nodes.targets.data(), nodes.targets.size(), sums.data() + first * width(), (last - first) * width());
        } else if (is_reach) {
            code = domethyme_reach(&handles[thread], &start, 1, limit, rows, width());
        } else {
            code = domethyme_table(&handles[thread], nodes.sources.data() + first, last - first, nodes.targets.data(), nodes.targets.size(), rows, (last - first) * width());
        }
        if (code != DOMETHYME_OK) std::exit(1);
    }

    void ask_all() {
        if (handles.size() == 1) return ask(0);
        std::vector<std::thread> threads;
        for (std::size_t thread = 0; thread < handles.size(); thread++) threads.emplace_back(&Table::ask, this, thread);
        for (std::thread &each : threads) each.join();
    }

    // Has sums of numbers that are drawn for the links without a middle.
    bool add_sums() {
        std::size_t links = 0, count = 0;
        domethyme_links(&handles[0], &links);
        domethyme_arcs(&handles[0], nullptr, 0, &count);
        std::vector<std::uint32_t> numbers;
        for (std::size_t each = 0; each < count; each++) numbers.push_back(static_cast<std::uint32_t>(each) * 2654435761u >> 16);
        set.resize(1 + links);
        sums.resize(cells.size());
        return domethyme_numbers(&handles[0], numbers.data(), count, set.data(), set.size()) == DOMETHYME_OK;
    }
};

int main(int count, char **words) {
    if (count != 8 && !(count == 9 && std::strcmp(words[8], "sums") == 0)) {
        std::fprintf(stderr, "usage: library_rows HIER KIND SOURCES TARGETS ROUNDS KEPT THREADS [sums]\n");
        return 2;
    }
    std::vector<unsigned char> bytes = bytes_of(words[1]);
    domethyme handle = DOMETHYME_CLOSED;
    std::uint32_t nodes = 0;
    if (domethyme_open(&handle, bytes.data(), bytes.size()) != DOMETHYME_OK || domethyme_nodes(&handle, &nodes) != DOMETHYME_OK) return 2;
    std::size_t sources = std::strtoul(words[3], nullptr, 10), targets = std::strtoul(words[4], nullptr, 10);
    Table table;
    table.is_reach = std::strcmp(words[2], "reach") == 0;
    table.limit = targets > 0 ? targets : DOMETHYME_NO_LENGTH;
    table.nodes = nodes_for(table.is_reach ? "all" : words[2], nodes, sources, targets);
    table.cells.resize((table.is_reach ? 1 : sources) * table.nodes.targets.size());
    table.handles.assign(std::strtoul(words[7], nullptr, 10), DOMETHYME_CLOSED);
    for (domethyme &each : table.handles)
        if (domethyme_beside(&handle, &each) != DOMETHYME_OK) return 2;
    if (count == 9 && !table.add_sums()) return 2;
    std::vector<double> first, later;
    bool is_alone = table.handles.size() == 1;
    for (int rounds = std::atoi(words[5]), kept = std::atoi(words[6]); rounds > 0; rounds--) {
        for (domethyme &each : table.handles) domethyme_table(&each, nullptr, 0, nullptr, 0, nullptr, 0);
        double begun = milliseconds(is_alone);
        for (int call = 0; call <= kept; call++) {
            table.ask_all();
            double ended = milliseconds(is_alone);
            (call == 0 ? first : later).push_back(ended - begun);
            begun = ended;
        }
    }
    for (std::size_t cell = 0; cell < table.sums.size(); cell++) table.cells[cell] = table.sums[cell].length;
    std::size_t known = 0;
    for (std::uint64_t cell : table.cells) known += cell != DOMETHYME_NO_LENGTH;
    std::printf("%.3f %.3f %016llx %zu\n", median(first), median(later), sum_of(table.cells), known);
    for (domethyme &each : table.handles) domethyme_close(&each);
    domethyme_close(&handle);
    return 0;
}
