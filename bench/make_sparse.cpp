// Writes a network with the figures of the largest road networks of the Ninth DIMACS Implementation Challenge, the same for
// the same arguments: 2.43 arcs a node, most nodes on chains or dead ends, near numbers, several levels of roads.
//
//     make_sparse NODES ARCS SEED NETWORK.gr [PAIRS RANDOM.pairs [STEPS PAIRS NEAR.pairs]]
//
// NODES is at least 1,000. ARCS 0 leaves the number of arcs to the network, some 2.44 a node; any other number is met exactly,
// by more or fewer one-way streets, where it is between 2.3 and 2.46 a node. The whole of the USA, 23947347 nodes and 58333344
// arcs, takes half a minute.
//
// Junctions lie on a jittered square and are numbered along a Z-order curve, so that near places have near numbers. Each is
// joined to the next in its row and in its column, but for one plain road in seven. Every 8th line is 2 times, every 32nd 4
// times and every 128th 6 times as fast. A road has 0 to 3 nodes on it, which are numbered behind the junction where it
// begins. One road in forty is a one-way street. What is left of NODES are dead ends of 1 to 3 nodes at drawn junctions.
// Weights are travel times. Both ends of a random pair are drawn from all nodes; those of a near pair are junctions at most
// STEPS rows and columns apart.
#include <cmath>
#include <cstdint>
#include <cstdio>
#include <cstdlib>
#include <string>
#include <utility>
#include <vector>

namespace {

// A generator of 64-bit numbers (Steele, Lea, Flood 2014).
class Draw {
public:
    explicit Draw(uint64_t seed) : state(seed) {}

    uint64_t next() {
        uint64_t z = state += 0x9e3779b97f4a7c15ull;
        z = (z ^ (z >> 30)) * 0xbf58476d1ce4e5b9ull;
        z = (z ^ (z >> 27)) * 0x94d049bb133111ebull;
        return z ^ (z >> 31);
    }

    uint64_t below(uint64_t bound) { return static_cast<uint64_t>((static_cast<__uint128_t>(next()) * bound) >> 64); }
    double between(double low, double high) { return low + (high - low) * (next() >> 11) * 0x1p-53; }

private:
    uint64_t state;
};

// A file that is written through a buffer of its own.
class Text {
public:
    explicit Text(const char *path) : file(std::fopen(path, "w")) {
        if (!file) fail(path);
        buffer.reserve(room + 128);
    }

    Text &operator<<(const char *word) {
        buffer += word;
        return *this;
    }

    Text &operator<<(uint64_t number) {
        char digits[20];
        int at = 20;
        do digits[--at] = static_cast<char>('0' + number % 10);
        while (number /= 10);
        buffer.append(digits + at, 20 - at);
        return *this;
    }

    void end_line() {
        buffer += '\n';
        if (buffer.size() >= room) flush();
    }

    void close() {
        flush();
        if (std::fclose(file)) fail("close");
    }

private:
    static constexpr size_t room = 1 << 20;
    std::FILE *file;
    std::string buffer;

    void flush() {
        if (std::fwrite(buffer.data(), 1, buffer.size(), file) != buffer.size()) fail("write");
        buffer.clear();
    }

    [[noreturn]] static void fail(const char *what) {
        std::perror(what);
        std::exit(1);
    }
};

struct Edge {
    uint32_t from, to, weight;
    bool is_one_way;
};

int speed_of(uint32_t line) { return line % 128 == 0 ? 6 : line % 32 == 0 ? 4 : line % 8 == 0 ? 2 : 1; }

// Every other bit of a number along the Z-order curve.
uint32_t half_of(uint64_t code) {
    uint32_t half = 0;
    for (int bit = 0; bit < 32; bit++) half |= static_cast<uint32_t>((code >> (2 * bit)) & 1) << bit;
    return half;
}

class Network {
public:
    Network(uint32_t nodes, uint64_t seed) : nodes(nodes), draw(seed) {
        side = static_cast<uint32_t>(std::sqrt(0.311 * nodes));
        junctions.assign(static_cast<size_t>(side) * side, 0);
        shifts.reserve(junctions.size());
        for (size_t at = 0; at < junctions.size(); at++)
            shifts.push_back({static_cast<float>(draw.between(-0.3, 0.3)), static_cast<float>(draw.between(-0.3, 0.3))});
        number_nodes();
        add_dead_ends();
    }

    // Makes arcs of one-way streets into two-way ones, or the other way round, until there are so many arcs.
    void have_arcs(uint64_t wanted) {
        uint64_t arcs = count();
        for (size_t at = 0; at < edges.size() && arcs != wanted; at++)
            if (edges[at].is_one_way == (arcs < wanted)) {
                arcs += arcs < wanted ? 1 : -1;
                edges[at].is_one_way = !edges[at].is_one_way;
            }
        if (arcs != wanted) {
            std::fprintf(stderr, "make_sparse: a network of %u nodes has %llu arcs, and can't have %llu\n", nodes,
                         static_cast<unsigned long long>(arcs), static_cast<unsigned long long>(wanted));
            std::exit(1);
        }
    }

    uint64_t count() const {
        uint64_t arcs = 0;
        for (const Edge &edge : edges) arcs += edge.is_one_way ? 1 : 2;
        return arcs;
    }

    void write(const char *path, const char *seed) const {
        Text out(path);
        out << "c a sparse network, seed " << seed;
        out.end_line();
        out << "p sp " << nodes << " " << count();
        out.end_line();
        for (const Edge &edge : edges) {
            write_arc(out, edge.from, edge.to, edge.weight);
            if (!edge.is_one_way) write_arc(out, edge.to, edge.from, edge.weight);
        }
        out.close();
    }

    void write_pairs(const char *path, uint64_t pairs, uint32_t steps) {
        Text out(path);
        out << "p aux sp p2p " << pairs;
        out.end_line();
        for (uint64_t at = 0; at < pairs; at++) {
            uint64_t from = draw.below(nodes), to = draw.below(nodes);
            if (steps > 0) {
                uint32_t x = draw.below(side), y = draw.below(side);
                from = junctions[place(x, y)];
                to = junctions[place(beside(x, steps), beside(y, steps))];
            }
            out << "q " << from + 1 << " " << to + 1;
            out.end_line();
        }
        out.close();
    }

private:
    struct Shift {
        float x, y;
    };

    uint32_t nodes, side = 0, used = 0;  // how many there are, of places in a row, of nodes that have a number
    Draw draw;
    std::vector<uint32_t> junctions;  // the number of each place's node
    std::vector<Shift> shifts;        // how far it is from the middle of its place
    std::vector<Edge> edges;

    size_t place(uint32_t x, uint32_t y) const { return static_cast<size_t>(y) * side + x; }

    uint32_t beside(uint32_t at, uint32_t steps) {
        uint32_t low = at > steps ? at - steps : 0, high = at + steps < side ? at + steps : side - 1;
        return low + static_cast<uint32_t>(draw.below(high - low + 1));
    }

    static void write_arc(Text &out, uint32_t from, uint32_t to, uint32_t weight) {
        out << "a " << uint64_t{from} + 1 << " " << uint64_t{to} + 1 << " " << uint64_t{weight};
        out.end_line();
    }

    struct Road {
        size_t from, to;
        uint32_t first, count;  // the nodes on it
        int speed;
    };

    // Numbers junctions and the nodes on their roads along the curve, and then joins them.
    void number_nodes() {
        std::vector<Road> roads;
        uint64_t end = 1;
        while (end < static_cast<uint64_t>(side) * side * 4) end *= 4;
        uint32_t next = 0;
        for (uint64_t code = 0; code < end; code++) {
            uint32_t x = half_of(code), y = half_of(code >> 1);
            if (x >= side || y >= side) continue;
            junctions[place(x, y)] = next++;
            if (x + 1 < side) add_road(roads, place(x, y), place(x + 1, y), speed_of(y), next);
            if (y + 1 < side) add_road(roads, place(x, y), place(x, y + 1), speed_of(x), next);
        }
        if (next > nodes) {
            std::fprintf(stderr, "make_sparse: %u nodes are too few\n", nodes);
            std::exit(1);
        }
        for (const Road &road : roads) join(road);
        used = next;
    }

    void add_road(std::vector<Road> &roads, size_t from, size_t to, int speed, uint32_t &next) {
        if (speed == 1 && draw.below(7) == 0) return;
        static const uint32_t on_road[] = {0, 0, 0, 0, 1, 1, 2, 2, 2, 3};
        uint32_t count = on_road[draw.below(10)];
        roads.push_back({from, to, next, count, speed});
        next += count;
    }

    void join(const Road &road) {
        double across = static_cast<double>(road.to - road.from == 1), down = 1 - across;
        double x = across + shifts[road.to].x - shifts[road.from].x, y = down + shifts[road.to].y - shifts[road.from].y;
        double length = 1000 * std::hypot(x, y) * draw.between(1.0, 1.3) / road.speed;
        bool is_one_way = draw.below(40) == 0, is_turned = draw.below(2) == 0;
        uint32_t from = junctions[road.from];
        for (uint32_t at = 0; at <= road.count; at++) {
            uint32_t to = at < road.count ? road.first + at : junctions[road.to];
            uint32_t weight = static_cast<uint32_t>(std::lround(length / (road.count + 1) * draw.between(0.7, 1.3)));
            Edge edge{from, to, weight > 0 ? weight : 1, is_one_way};
            if (is_turned) std::swap(edge.from, edge.to);
            edges.push_back(edge);
            from = to;
        }
    }

    void add_dead_ends() {
        while (used < nodes) {
            uint32_t from = junctions[draw.below(junctions.size())], left = 1 + static_cast<uint32_t>(draw.below(3));
            for (; left > 0 && used < nodes; left--, used++) {
                edges.push_back({from, used, static_cast<uint32_t>(100 + draw.below(300)), false});
                from = used;
            }
        }
    }
};

uint64_t number(const char *word) {
    char *end;
    uint64_t value = std::strtoull(word, &end, 10);
    if (*word < '0' || *word > '9' || *end) {
        std::fprintf(stderr, "make_sparse: %s isn't a number\n", word);
        std::exit(2);
    }
    return value;
}

}  // namespace

int main(int count, char **words) {
    if (count != 5 && count != 7 && count != 10) {
        std::fprintf(stderr, "usage: make_sparse NODES ARCS SEED NETWORK.gr [PAIRS RANDOM.pairs [STEPS PAIRS NEAR.pairs]]\n");
        return 2;
    }
    Network network(static_cast<uint32_t>(number(words[1])), number(words[3]));
    if (number(words[2]) > 0) network.have_arcs(number(words[2]));
    network.write(words[4], words[3]);
    if (count > 5) network.write_pairs(words[6], number(words[5]), 0);
    if (count > 7) network.write_pairs(words[9], number(words[8]), static_cast<uint32_t>(number(words[7])));
}
