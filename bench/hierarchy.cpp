// A textbook contraction hierarchy, to compare with: nodes by edge difference with lazy updates, witness searches that
// settle at most 64 nodes, and a query by two upward searches that meet. Of the walks of the least length it finds one of
// the fewest arcs, as `routecli` does: costs are pairs of both.
//
//     hierarchy GRAPH PAIRS [OUT]    reads both, prepares, answers, and prints the times on standard error:
//                                    seconds to prepare, links per arc, seconds to answer. Lines `r S T LENGTH ARCS` or
//                                    `n S T`. The hierarchy's file goes to OUT, in the form of docs/FORMATS.md.
#include <algorithm>
#include <chrono>
#include <cstdint>
#include <cstdio>
#include <queue>
#include <utility>
#include <vector>

// What a walk costs. Of walks of one weight, one of fewer arcs costs less.
struct Cost {
    std::uint64_t weight, arcs;
    Cost operator+(const Cost &more) const { return {weight + more.weight, arcs + more.arcs}; }
    bool operator==(const Cost &other) const { return weight == other.weight && arcs == other.arcs; }
    bool operator<(const Cost &other) const {
        return weight < other.weight || (weight == other.weight && arcs < other.arcs);
    }
};
struct Arc {
    std::uint32_t other;
    std::uint32_t middle;
    Cost cost;
};
using Rows = std::vector<std::vector<Arc>>;
using Entry = std::pair<Cost, std::uint32_t>;
using Heap = std::priority_queue<Entry, std::vector<Entry>, std::greater<Entry>>;
static const Cost NOTHING = {0, 0}, FAR = {~std::uint64_t{0}, ~std::uint64_t{0}};
static const std::uint32_t NO_MIDDLE = 0xFFFFFFFF;
static const int SETTLE = 64;

static double now() {
    return std::chrono::duration<double>(std::chrono::steady_clock::now().time_since_epoch()).count();
}

static void put(std::vector<Arc> &row, std::uint32_t other, Cost cost, std::uint32_t middle) {
    for (Arc &arc : row) {
        if (arc.other == other) {
            if (cost < arc.cost) arc = {other, middle, cost};
            return;
        }
    }
    row.push_back({other, middle, cost});
}

static void take_out(std::vector<Arc> &row, std::uint32_t other) {
    for (std::size_t i = 0; i < row.size(); i++) {
        if (row[i].other == other) {
            row[i] = row.back();
            row.pop_back();
            return;
        }
    }
}

struct Hierarchy {
    Rows out, in, up, down;
    std::vector<Cost> label;
    std::vector<std::uint32_t> touched, ranks;
    std::size_t links = 0;
    Cost bound = NOTHING;
    struct Shortcut {
        std::uint32_t from, to;
        Cost cost;
    };

    void search(std::uint32_t from, std::uint32_t avoid, Cost cutoff) {
        for (std::uint32_t node : touched) label[node] = FAR;
        touched.assign(1, from);
        label[from] = NOTHING;
        Heap heap;
        heap.push({NOTHING, from});
        for (int settled = 0; !heap.empty() && settled < SETTLE;) {
            auto [cost, node] = heap.top();
            heap.pop();
            if (label[node] < cost) continue;
            settled++;
            for (const Arc &arc : out[node]) {
                Cost sum = cost + arc.cost;
                if (arc.other == avoid || cutoff < sum || !(sum < label[arc.other])) continue;
                if (label[arc.other] == FAR) touched.push_back(arc.other);
                label[arc.other] = sum;
                heap.push({sum, arc.other});
            }
        }
    }

    // Whether two arcs join different nodes and are on a walk that repeats none.
    bool is_pair(const Arc &into, const Arc &outof) const {
        Cost sum = into.cost + outof.cost;
        return into.other != outof.other && sum.weight <= bound.weight && sum.arcs <= bound.arcs;
    }

    std::vector<Shortcut> shortcuts(std::uint32_t node) {
        std::vector<Shortcut> found;
        for (const Arc &into : in[node]) {
            Cost most = NOTHING;
            for (const Arc &outof : out[node])
                if (is_pair(into, outof)) most = std::max(most, into.cost + outof.cost);
            if (most == NOTHING) continue;
            search(into.other, node, most);
            for (const Arc &outof : out[node]) {
                Cost sum = into.cost + outof.cost;
                if (is_pair(into, outof) && sum < label[outof.other]) found.push_back({into.other, outof.other, sum});
            }
        }
        return found;
    }

    std::int64_t key(std::uint32_t node, const std::vector<Shortcut> &found) const {
        return static_cast<std::int64_t>(found.size()) - static_cast<std::int64_t>(in[node].size() + out[node].size());
    }

    void prepare() {
        std::uint32_t nodes = out.size();
        label.assign(nodes, FAR);
        ranks.resize(nodes);
        std::uint32_t rank = 0;
        up.resize(nodes);
        down.resize(nodes);
        std::priority_queue<std::pair<std::int64_t, std::uint32_t>, std::vector<std::pair<std::int64_t, std::uint32_t>>, std::greater<>> order;
        for (std::uint32_t node = 0; node < nodes; node++) order.push({key(node, shortcuts(node)), node});
        while (!order.empty()) {
            std::uint32_t node = order.top().second;
            order.pop();
            std::vector<Shortcut> found = shortcuts(node);
            std::int64_t current = key(node, found);
            if (!order.empty() && current > order.top().first) {
                order.push({current, node});
                continue;
            }
            for (const Arc &arc : in[node]) take_out(out[arc.other], node);
            for (const Arc &arc : out[node]) take_out(in[arc.other], node);
            for (const Shortcut &s : found) {
                put(out[s.from], s.to, s.cost, node);
                put(in[s.to], s.from, s.cost, node);
            }
            ranks[node] = rank++;
            links += in[node].size() + out[node].size();
            up[node].swap(out[node]);
            down[node].swap(in[node]);
        }
    }

    void write(std::FILE *file) const {
        std::vector<std::vector<Arc>> rows = up;
        for (std::uint32_t to = 0; to < rows.size(); to++)
            for (const Arc &arc : down[to]) rows[arc.other].push_back({to, arc.middle, arc.cost});
        auto number = [file](std::uint64_t value, int bytes) {
            while (bytes > 0) std::putc(static_cast<int>(value >> 8 * --bytes & 255), file);
        };
        std::fputs("RCH2", file);
        number(rows.size(), 4), number(links, 8), number(bound.weight, 8);
        for (std::uint32_t rank : ranks) number(rank, 4);
        for (std::uint32_t from = 0; from < rows.size(); from++) {
            auto is_before = [](const Arc &a, const Arc &b) { return a.other < b.other; };
            std::sort(rows[from].begin(), rows[from].end(), is_before);
            for (const Arc &arc : rows[from]) {
                number(from, 4), number(arc.other, 4), number(arc.cost.weight, 8), number(arc.cost.arcs, 4);
                number(arc.middle, 4);
            }
        }
    }

    static void climb(const Rows &rows, std::uint32_t start, std::vector<Cost> &costs, std::vector<std::uint32_t> &seen) {
        for (std::uint32_t node : seen) costs[node] = FAR;
        seen.assign(1, start);
        costs[start] = NOTHING;
        Heap heap;
        heap.push({NOTHING, start});
        while (!heap.empty()) {
            auto [cost, node] = heap.top();
            heap.pop();
            if (costs[node] < cost) continue;
            for (const Arc &arc : rows[node]) {
                Cost sum = cost + arc.cost;
                if (!(sum < costs[arc.other])) continue;
                if (costs[arc.other] == FAR) seen.push_back(arc.other);
                costs[arc.other] = sum;
                heap.push({sum, arc.other});
            }
        }
    }
};

int main(int count, char **words) {
    if (count != 3 && count != 4) return 2;
    Hierarchy h;
    std::uint64_t heaviest = 0;
    std::size_t arcs = 0;
    FILE *file = std::fopen(words[1], "r");
    if (!file) return 7;
    char line[256];
    while (std::fgets(line, sizeof line, file)) {
        unsigned long u, v, w;
        if (std::sscanf(line, "p sp %lu %lu", &u, &v) == 2) {
            h.out.resize(u);
            h.in.resize(u);
        } else if (std::sscanf(line, "a %lu %lu %lu", &u, &v, &w) == 3) {
            arcs++;
            heaviest = std::max<std::uint64_t>(heaviest, w);
            if (u == v) continue;
            put(h.out[u - 1], v - 1, {w, 1}, NO_MIDDLE);
            put(h.in[v - 1], u - 1, {w, 1}, NO_MIDDLE);
        }
    }
    std::fclose(file);
    if (!h.out.empty()) h.bound = {(h.out.size() - 1) * heaviest, h.out.size() - 1};
    double start = now();
    h.prepare();
    double prepared = now();
    if (count == 4) {
        file = std::fopen(words[3], "wb");
        if (!file) return 7;
        h.write(file);
        if (std::fclose(file) != 0) return 7;
    }
    file = std::fopen(words[2], "r");
    if (!file) return 7;
    std::vector<std::pair<unsigned long, unsigned long>> pairs;
    while (std::fgets(line, sizeof line, file)) {
        unsigned long s, t;
        if (std::sscanf(line, "q %lu %lu", &s, &t) == 2) pairs.push_back({s, t});
    }
    std::fclose(file);
    std::vector<Cost> there(h.up.size(), FAR), back(h.up.size(), FAR);
    std::vector<std::uint32_t> seen_there, seen_back;
    double asked = now();
    for (auto [s, t] : pairs) {
        Hierarchy::climb(h.up, s - 1, there, seen_there);
        Hierarchy::climb(h.down, t - 1, back, seen_back);
        Cost best = FAR;
        for (std::uint32_t node : seen_there)
            if (!(back[node] == FAR)) best = std::min(best, there[node] + back[node]);
        if (best == FAR)
            std::printf("n %lu %lu\n", s, t);
        else
            std::printf("r %lu %lu %lu %lu\n", s, t, best.weight, best.arcs);
    }
    double answered = now();
    std::fprintf(stderr, "%.3f %.2f %.3f\n", prepared - start, static_cast<double>(h.links) / arcs, answered - asked);
}
