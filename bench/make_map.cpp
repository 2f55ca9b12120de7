// Writes a map of a made country as OpenStreetMap has it, the same for the same arguments:
//
//     g++ -std=c++17 -O2 -o out/make_map bench/make_map.cpp -lz -lpthread
//     out/make_map NODES SEED OUT.osm.pbf
//
// Junctions lie on a jittered square of 200 metres a step around 47 N, 9 E, each joined to the next in its row and column by a
// street with two nodes between, so there are five nodes for each junction. Every 8th line is a tertiary road, every 32nd a
// primary and every 128th a trunk road, with `ref`; the others are residential, and one street in twenty is a footway. A way goes
// on through two junctions of three, and ends at the others, where one in twenty has a turn restriction. A line has a name for 16
// of its steps. One way in 40 is one-way, one in ten has a maxspeed, and one node in 4,000 is a bollard. Ids have gaps.
//
// Needs Debian's libosmium2-dev. Standard output: how many nodes, ways and relations there are.

#include <cmath>
#include <cstdint>
#include <cstdio>
#include <cstdlib>
#include <osmium/builder/attr.hpp>
#include <osmium/io/pbf_output.hpp>
#include <osmium/io/writer.hpp>
#include <osmium/memory/buffer.hpp>
#include <string>
#include <vector>

namespace {

using namespace osmium::builder::attr;
using Tags = std::vector<std::pair<std::string, std::string>>;

constexpr double STEP = 0.0018, LON = 9.0, LAT = 47.0;
constexpr std::int64_t GAP = 3;
constexpr std::size_t FLUSH = 1 << 22;

// A number of 64 bits for a thing of a kind (splitmix64)
std::uint64_t draw(std::uint64_t seed, std::uint64_t kind, std::uint64_t number) {
    std::uint64_t value = seed * 0x9E3779B97F4A7C15 + kind * 0xD1B54A32D192ED03 + number * 0x8CB92BA72F3D8DD7;
    value = (value ^ (value >> 30)) * 0xBF58476D1CE4E5B9;
    value = (value ^ (value >> 27)) * 0x94D049BB133111EB;
    return value ^ (value >> 31);
}

class Country {
public:
    Country(std::int64_t nodes, std::uint64_t seed, const std::string& path)
        : side_(std::max<std::int64_t>(2, std::llround(std::sqrt(nodes / 5.0)))), seed_(seed),
          writer_(osmium::io::File{path}, osmium::io::overwrite::allow), arrives_(side_ * side_), leaves_(side_ * side_) {}

    void write() {
        for (std::int64_t junction = 0; junction < side_ * side_; ++junction) {
            for (int part = 0; part < 5; ++part) node(junction, part);
        }
        for (std::int64_t line = 0; line < side_; ++line) ways(line, true);
        for (std::int64_t line = 0; line < side_; ++line) ways(line, false);
        for (std::int64_t junction = 0; junction < side_ * side_; ++junction) restriction(junction);
        flush(0);
        writer_.close();
        std::printf("%lld nodes, %lld ways, %lld relations\n", nodes_, ways_, relations_);
    }

private:
    bool is(std::uint64_t kind, std::int64_t number, std::uint64_t one_in) const {
        return draw(seed_, kind, static_cast<std::uint64_t>(number)) % one_in == 0;
    }
    double jitter(std::uint64_t kind, std::int64_t number, double most) const {
        return (static_cast<double>(draw(seed_, kind, static_cast<std::uint64_t>(number)) >> 11) / 4503599627370496.0 - 1) * most;
    }
    // Part 0 is the junction, 1 and 2 are on the way to the next in its row, 3 and 4 to the next in its column
    std::int64_t id(std::int64_t junction, int part) const {
        const std::int64_t number = junction * 5 + part;
        return 1 + number * GAP + static_cast<std::int64_t>(draw(seed_, 1, static_cast<std::uint64_t>(number)) % GAP);
    }
    void node(std::int64_t junction, int part) {
        const std::int64_t column = junction % side_, row = junction / side_;
        if ((part == 1 || part == 2) && column + 1 == side_) return;
        if (part > 2 && row + 1 == side_) return;
        const double east = part == 1 || part == 2 ? part / 3.0 : 0, north = part > 2 ? (part - 2) / 3.0 : 0;
        const double side = part == 0 ? 0.3 : 0.08;
        const double lon = LON + STEP * (column - side_ / 2 + east + jitter(2, junction * 5 + part, side));
        const double lat = LAT + STEP * 0.7 * (row - side_ / 2 + north + jitter(3, junction * 5 + part, side));
        const osmium::Location location(lon, lat);
        if (part > 0 && is(4, junction * 5 + part, 4000)) {
            osmium::builder::add_node(buffer_, _id(id(junction, part)), _location(location), _tag("barrier", "bollard"));
        } else {
            osmium::builder::add_node(buffer_, _id(id(junction, part)), _location(location));
        }
        ++nodes_;
        flush(FLUSH);
    }
    bool ends_at(std::int64_t junction) const { return is(5, junction, 3); }
    // The ways along a row or a column
    void ways(std::int64_t line, bool is_row) {
        const std::int64_t step = is_row ? 1 : side_, first = is_row ? line * side_ : line;
        std::vector<osmium::object_id_type> nodes;
        std::int64_t from = first;
        for (std::int64_t place = 0; place < side_; ++place) {
            const std::int64_t junction = first + place * step;
            nodes.push_back(id(junction, 0));
            if (place + 1 == side_ || (place > 0 && ends_at(junction))) {
                if (nodes.size() > 1) way(line, place, is_row, from, junction, nodes);
                from = junction;
                nodes.assign(1, id(junction, 0));
            }
            nodes.push_back(id(junction, is_row ? 1 : 3));
            nodes.push_back(id(junction, is_row ? 2 : 4));
        }
    }
    void way(std::int64_t line, std::int64_t place, bool is_row, std::int64_t from, std::int64_t to,
             const std::vector<osmium::object_id_type>& nodes) {
        const std::int64_t way = ++ways_;
        if (is_row) arrives_[to] = way;
        else leaves_[from] = way;
        const char* letter = is_row ? "R" : "C";
        Tags tags;
        const bool is_great = line % 8 == 0;
        tags.emplace_back("highway", line % 128 == 0 ? "trunk" : line % 32 == 0 ? "primary" : is_great ? "tertiary"
                                     : is(6, way, 20) ? "footway" : "residential");
        tags.emplace_back("name", std::string("Street ") + letter + std::to_string(line) + "-" + std::to_string(place / 16));
        if (line % 32 == 0) tags.emplace_back("ref", letter + std::to_string(line / 32));
        if (is(7, way, 40)) tags.emplace_back("oneway", "yes");
        if (is(8, way, 10)) tags.emplace_back("maxspeed", is_great ? "60" : "20");
        osmium::builder::add_way(buffer_, _id(way), _nodes(nodes), _tags(tags));
        flush(FLUSH);
    }
    // From the way in the row that ends at a junction into the one in the column that begins there
    void restriction(std::int64_t junction) {
        if (arrives_[junction] == 0 || leaves_[junction] == 0 || !is(9, junction, 20)) return;
        const bool is_only = is(10, junction, 4);
        osmium::builder::add_relation(
            buffer_, _id(++relations_), _member(osmium::item_type::way, arrives_[junction], "from"),
            _member(osmium::item_type::node, id(junction, 0), "via"), _member(osmium::item_type::way, leaves_[junction], "to"),
            _tag("type", "restriction"), _tag("restriction", is_only ? "only_left_turn" : "no_left_turn"));
        flush(FLUSH);
    }
    void flush(std::size_t least) {
        if (buffer_.committed() <= least) return;
        osmium::memory::Buffer full(FLUSH + (1 << 16), osmium::memory::Buffer::auto_grow::yes);
        std::swap(full, buffer_);
        writer_(std::move(full));
    }

    std::int64_t side_;
    std::uint64_t seed_;
    osmium::io::Writer writer_;
    osmium::memory::Buffer buffer_{FLUSH + (1 << 16), osmium::memory::Buffer::auto_grow::yes};
    // The way in the row that ends at a junction, and the way in the column that begins there
    std::vector<std::int64_t> arrives_, leaves_;
    long long nodes_ = 0, ways_ = 0, relations_ = 0;
};

}  // namespace

int main(int count, char** words) {
    if (count != 4) {
        std::fprintf(stderr, "make_map NODES SEED OUT.osm.pbf\n");
        return 2;
    }
    try {
        Country(std::atoll(words[1]), std::strtoull(words[2], nullptr, 10), words[3]).write();
    } catch (const std::exception& error) {
        std::fprintf(stderr, "make_map: %s\n", error.what());
        return 1;
    }
}
