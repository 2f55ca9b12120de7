// One worker's preparation by the rules of docs/dev/ALGORITHM.md, to compare with: rows are changed in place, and there is no log,
// no receipt and no account. It writes the file that `routecli prepare --workers 1` writes, to the byte.
//
//     one_worker NETWORK.gr OUT.rch [ORDER [SEED]]    ORDER is edges, neighbours, depth or balanced. Prints seconds to contract and
//                                                     the number of links on standard error.
#include "text.hpp"

#include <algorithm>
#include <array>
#include <chrono>
#include <cstdint>
#include <cstdio>
#include <cstdlib>
#include <fcntl.h>
#include <string>
#include <sys/stat.h>
#include <utility>
#include <vector>

static const std::uint32_t NO_MIDDLE = 0xFFFFFFFF, SETTLE = 64, DEFER = 16;

struct Cost {
    std::uint64_t weight, arcs;
    Cost operator+(const Cost &more) const { return {weight + more.weight, arcs + more.arcs}; }
    bool operator<(const Cost &other) const { return weight < other.weight || (weight == other.weight && arcs < other.arcs); }
};
static const Cost NOTHING = {0, 0}, FAR = {std::uint64_t{1} << 62, std::uint64_t{1} << 32};

// An entry of a row, which is sorted by the other node.
struct Entry {
    std::uint32_t other, middle;
    Cost cost;
};
using Row = std::vector<Entry>;

struct Link {
    std::uint32_t from, to, middle;
    Cost cost;
};

static Row::iterator place_of(Row &row, std::uint32_t other) {
    return std::lower_bound(row.begin(), row.end(), other, [](const Entry &entry, std::uint32_t node) { return entry.other < node; });
}

static void put(Row &row, const Entry &entry) {
    auto place = place_of(row, entry.other);
    if (place == row.end() || place->other != entry.other) {
        row.insert(place, entry);
    } else if (entry.cost < place->cost) {
        *place = entry;
    }
}

// The PCG of 32 bits of the first pass of a queue.
struct Draws {
    std::uint64_t state;
    explicit Draws(std::uint64_t seed) : state(seed + 1) { step(); }
    void step() { state = state * 6364136223846793005u + 1; }
    std::uint32_t next() {
        std::uint64_t now = state;
        step();
        std::uint32_t word = static_cast<std::uint32_t>(((now >> 18) ^ now) >> 27), turn = static_cast<std::uint32_t>(now >> 59);
        return word >> turn | word << (-turn & 31);
    }
};

struct Queue {
    using Item = std::pair<std::uint64_t, std::uint32_t>;
    std::array<std::vector<Item>, 2> heaps;
    Draws draws;
    explicit Queue(std::uint64_t seed) : draws(seed) {}

    void push(Item item) {
        std::vector<Item> &heap = heaps[draws.next() % heaps.size()];
        heap.push_back(item);
        std::push_heap(heap.begin(), heap.end(), std::greater<>());
    }

    bool pop(Item &item) {
        std::size_t first = draws.next() % heaps.size(), second = draws.next() % heaps.size();
        auto is_better = [this](std::size_t a, std::size_t b) {
            return !heaps[a].empty() && (heaps[b].empty() || heaps[a].front() < heaps[b].front());
        };
        std::size_t chosen = is_better(second, first) ? second : first;
        for (std::size_t at = 0; at < heaps.size() && heaps[chosen].empty(); at++) chosen = at;
        std::vector<Item> &heap = heaps[chosen];
        if (heap.empty()) return false;
        item = heap.front();
        std::pop_heap(heap.begin(), heap.end(), std::greater<>());
        heap.pop_back();
        return true;
    }
};

struct Shortcut {
    std::uint32_t from, to;
    Cost cost;
};

// What a search is to find: a way to this node of this cost at most, whose last arc costs this at least.
struct Target {
    std::uint32_t node;
    Cost enough, last_arc;
    bool is_done;
};

struct Contraction {
    std::vector<Row> out, inn;
    std::vector<std::uint32_t> ranks, depth, gone;
    std::vector<Cost> label;
    std::vector<bool> is_settled;
    std::vector<std::uint32_t> touched;
    std::vector<std::pair<Cost, std::uint32_t>> open;
    std::vector<Target> targets;
    std::vector<Shortcut> found;
    Cost bound = NOTHING;
    std::uint32_t done = 0;
    std::string order;

    void start(const text::Roads &graph) {
        out.resize(graph.nodes), inn.resize(graph.nodes);
        ranks.assign(graph.nodes, NO_MIDDLE), depth.assign(graph.nodes, 0), gone.assign(graph.nodes, 0);
        label.assign(graph.nodes, FAR), is_settled.assign(graph.nodes, false);
        for (const auto &road : graph.roads) {
            bound.weight = std::max<std::uint64_t>(bound.weight, road.weight);
            if (road.from == road.to) continue;
            put(out[road.from], {road.to, NO_MIDDLE, {road.weight, 1}});
            put(inn[road.to], {road.from, NO_MIDDLE, {road.weight, 1}});
        }
        bound.arcs = graph.nodes == 0 ? 0 : graph.nodes - 1;
        bound.weight *= bound.arcs;
    }

    bool is_heavy(Cost cost) const { return bound.weight < cost.weight || bound.arcs < cost.arcs; }

    // How many targets are left once the arcs of all nodes of a lower cost than this one's were followed.
    std::size_t left_at(std::uint32_t settled, Cost cost) {
        std::size_t left = 0;
        for (Target &target : targets) {
            Cost least = cost + target.last_arc;
            target.is_done |= target.node == settled || target.enough < least || !(least < label[target.node]);
            left += !target.is_done;
        }
        return left;
    }

    void search(std::uint32_t from, std::uint32_t avoid, Cost cutoff) {
        for (std::uint32_t node : touched) label[node] = FAR, is_settled[node] = false;
        touched.assign(1, from);
        label[from] = NOTHING;
        open.assign(1, {NOTHING, from});
        for (std::uint32_t settled = 0; !open.empty() && settled < SETTLE;) {
            auto [cost, node] = open.front();
            std::pop_heap(open.begin(), open.end(), std::greater<>());
            open.pop_back();
            if (is_settled[node]) continue;
            is_settled[node] = true;
            settled++;
            if (node != from && left_at(node, cost) == 0) return;
            for (const Entry &arc : out[node]) {
                Cost sum = cost + arc.cost;
                if (arc.other == avoid || cutoff < sum || !(sum < label[arc.other])) continue;
                if (!(label[arc.other] < FAR)) touched.push_back(arc.other);
                label[arc.other] = sum;
                open.push_back({sum, arc.other});
                std::push_heap(open.begin(), open.end(), std::greater<>());
            }
        }
    }

    // What each arc into a neighbour costs at least, but for one from `from` or `avoid`; nothing of any other node is known.
    Cost least_last_arc(std::uint32_t node, std::uint32_t from, std::uint32_t avoid) {
        auto place = place_of(inn[avoid], node);
        if (place == inn[avoid].end() || place->other != node) return NOTHING;
        Cost least = FAR;
        for (const Entry &arc : inn[node])
            if (arc.other != from && arc.other != avoid) least = std::min(least, arc.cost);
        return least;
    }

    // Finds the shortcuts of a contraction of the node.
    void propose(std::uint32_t node) {
        found.clear();
        for (const Entry &into : inn[node]) {
            targets.clear();
            Cost cutoff = NOTHING;
            for (const Entry &outof : out[node]) {
                Cost sum = into.cost + outof.cost;
                if (outof.other == into.other || is_heavy(sum)) continue;
                targets.push_back({outof.other, sum, least_last_arc(outof.other, into.other, node), false});
                cutoff = std::max(cutoff, sum);
            }
            if (targets.empty()) continue;
            search(into.other, node, cutoff);
            for (const Target &target : targets)
                if (target.enough < label[target.node]) found.push_back({into.other, target.node, target.enough});
        }
    }

    std::uint64_t key(std::uint32_t node) const {
        std::uint64_t arcs = inn[node].size() + out[node].size();
        if (order == "balanced") return (arcs ? 6000 * found.size() / arcs : 0) + std::uint64_t{1000} * depth[node];
        std::uint64_t edges = 67108864 + found.size() - arcs;
        return order == "edges" ? edges : edges + (order == "depth" ? depth[node] : gone[node]);
    }

    void contract(std::uint32_t node) {
        ranks[node] = done++;
        auto tell = [&](std::uint32_t other) {
            gone[other]++;
            depth[other] = std::max(depth[other], depth[node] + 1);
        };
        for (const Entry &arc : inn[node]) {
            out[arc.other].erase(place_of(out[arc.other], node));
            tell(arc.other);
        }
        for (const Entry &arc : out[node]) {
            inn[arc.other].erase(place_of(inn[arc.other], node));
            auto place = place_of(inn[node], arc.other);
            if (place == inn[node].end() || place->other != arc.other) tell(arc.other);
        }
        for (const Shortcut &shortcut : found) {
            put(out[shortcut.from], {shortcut.to, node, shortcut.cost});
            put(inn[shortcut.to], {shortcut.from, node, shortcut.cost});
        }
    }

    void work(std::uint64_t seed) {
        Queue queue(seed);
        for (std::uint32_t node = 0; node < out.size(); node++) {
            propose(node);
            queue.push({key(node), node});
        }
        std::uint32_t deferred = 0;
        for (Queue::Item item; queue.pop(item);) {
            propose(item.second);
            std::uint64_t now = key(item.second);
            if (now > item.first && deferred < DEFER) {
                deferred++;
                queue.push({now, item.second});
                continue;
            }
            deferred = 0;
            contract(item.second);
        }
    }

    std::vector<Link> links() const {
        std::vector<Link> all;
        for (std::uint32_t node = 0; node < out.size(); node++) {
            for (const Entry &arc : out[node]) all.push_back({node, arc.other, arc.middle, arc.cost});
            for (const Entry &arc : inn[node]) all.push_back({arc.other, node, arc.middle, arc.cost});
        }
        std::sort(all.begin(), all.end(), [](const Link &a, const Link &b) { return std::pair(a.from, a.to) < std::pair(b.from, b.to); });
        return all;
    }
};

// Writes the hierarchy's file, in the form of docs/FORMATS.md. Returns whether all was written.
static bool write(const char *name, const Contraction &made, const std::vector<Link> &links) {
    std::FILE *file = std::fopen(name, "wb");
    if (!file) return false;
    auto number = [file](std::uint64_t value, int bytes) {
        while (bytes > 0) std::putc(static_cast<int>(value >> 8 * --bytes & 255), file);
    };
    std::fputs("RCH2", file);
    number(made.ranks.size(), 4), number(links.size(), 8), number(made.bound.weight, 8);
    for (std::uint32_t rank : made.ranks) number(rank, 4);
    for (const Link &link : links) {
        number(link.from, 4), number(link.to, 4), number(link.cost.weight, 8), number(link.cost.arcs, 4);
        number(link.middle, 4);
    }
    return std::fclose(file) == 0;
}

static double seconds() {
    return std::chrono::duration<double>(std::chrono::steady_clock::now().time_since_epoch()).count();
}

int main(int count, char **words) {
    if (count < 3 || count > 5) return 2;
    int file = open(words[1], O_RDONLY);
    struct stat about;
    if (file < 0 || fstat(file, &about) != 0) return 7;
    text::Roads graph;
    try {
        text::read(file, static_cast<std::uint64_t>(about.st_size), graph);
    } catch (const text::Fault &fault) {
        std::fprintf(stderr, "one_worker: graph: %s line %lu\n", fault.kind, fault.line);
        return 3;
    } catch (const text::ReadFailed &) {
        return 7;
    }
    Contraction made;
    made.order = count > 3 ? words[3] : "edges";
    const std::string orders[] = {"edges", "neighbours", "depth", "balanced"};
    if (std::find(std::begin(orders), std::end(orders), made.order) == std::end(orders)) return 2;
    double begun = seconds();
    made.start(graph);
    made.work(count > 4 ? std::strtoull(words[4], nullptr, 10) : 1);
    std::vector<Link> links = made.links();
    std::fprintf(stderr, "%.3f %zu\n", seconds() - begun, links.size());
    return write(words[2], made, links) ? 0 : 7;
}
