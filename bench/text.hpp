// The texts of docs/FORMATS.md, road graphs and pairs of nodes, for the programs in C++ to compare with: read in pieces
// of 64 KiB and taken apart by hand.
//
// Nearly every line is a letter and numbers with one space between, so such lines are taken as they stand, eight digits
// at a time. Each other line is cut into its fields, and its faults are told in the order of docs/FORMATS.md.
#pragma once

#include <cstdint>
#include <cstring>
#include <string_view>
#include <unistd.h>
#include <vector>

namespace text {

// The first fault of a text.
struct Fault {
    const char *kind;
    std::uint64_t line;
};

struct ReadFailed {};

static const std::uint64_t MOST_NODES = 1 << 25, MOST_ENTRIES = 1 << 27, HEAVIEST = 4294967295;

// The first fields of a line, and how many there are.
struct Fields {
    std::string_view at[6];
    std::size_t count = 0;
};

static inline bool is_digit(char byte) { return static_cast<unsigned char>(byte - '0') < 10; }

// Takes a number of one to ten digits, and stands behind it. At least eight bytes can be read.
static inline bool take_number(const char *&at, std::uint64_t &number) {
    std::uint64_t bytes;
    std::memcpy(&bytes, at, 8);
    std::uint64_t digits = bytes ^ 0x3030303030303030;
    std::uint64_t others = (digits | (digits + 0x0606060606060606)) & 0xF0F0F0F0F0F0F0F0;
    int count = others ? __builtin_ctzll(others) / 8 : 8;
    if (count == 0) return false;
    digits <<= 64 - 8 * count;
    digits = digits * 10 + (digits >> 8);
    std::uint64_t odd = digits & 0x000000FF000000FF, even = (digits >> 16) & 0x000000FF000000FF;
    number = (odd * 0x000F424000000064 + even * 0x0000271000000001) >> 32 & 0xFFFFFFFF;
    at += count;
    if (count < 8) return true;
    for (int more = 0; is_digit(*at); more++) {
        if (more == 2) return false;
        number = 10 * number + static_cast<std::uint64_t>(*at++ - '0');
    }
    return true;
}

class Reader {
    static const std::size_t PIECE = 65536, PADDING = 16;
    int file;
    std::vector<char> buffer = std::vector<char>(PIECE + PADDING);
    std::size_t at = 0, limit = 0;
    bool ended = false;

    // Moves what is left to the front, and reads on behind it. A line feed always stands behind what was read.
    void read_on() {
        std::memmove(buffer.data(), buffer.data() + at, limit - at);
        limit -= at;
        at = 0;
        if (buffer.size() - PADDING - limit < PIECE / 2) buffer.resize(2 * buffer.size());
        ssize_t count = ::read(file, buffer.data() + limit, buffer.size() - PADDING - limit);
        if (count < 0) throw ReadFailed{};
        ended = count == 0;
        limit += static_cast<std::size_t>(count);
        buffer[limit] = '\n';
    }

public:
    // The lines that were taken.
    std::uint64_t line = 0;

    explicit Reader(int file) : file(file) { buffer[0] = '\n'; }

    // Takes a line of a letter and numbers, where it is as plain as nearly all are and was read whole; else nothing.
    template <std::size_t COUNT> bool plain_line(char letter, std::uint64_t (&numbers)[COUNT]) {
        const char *place = buffer.data() + at;
        if (place[0] != letter || place[1] != ' ') return false;
        place += 2;
        for (std::size_t i = 0; i < COUNT; i++)
            if (!take_number(place, numbers[i]) || *place++ != (i + 1 < COUNT ? ' ' : '\n')) return false;
        std::size_t behind = static_cast<std::size_t>(place - buffer.data());
        if (behind > limit) return false;
        at = behind;
        line++;
        return true;
    }

    // Takes any line and cuts it into fields, or answers false where the text has ended.
    bool any_line(Fields &fields) {
        const void *feed;
        std::size_t sought = 0;
        while (!(feed = std::memchr(buffer.data() + at + sought, '\n', limit - at - sought)) && !ended) {
            sought = limit - at;
            read_on();
        }
        if (!feed && at == limit) return false;
        const char *place = buffer.data() + at;
        const char *end = feed ? static_cast<const char *>(feed) : buffer.data() + limit;
        at = static_cast<std::size_t>(end - buffer.data()) + (feed ? 1 : 0);
        line++;
        if (end > place && end[-1] == '\r') end--;
        fields.count = 0;
        for (;;) {
            while (place < end && (*place == ' ' || *place == '\t')) place++;
            if (place == end) return true;
            const char *start = place;
            while (place < end && *place != ' ' && *place != '\t') place++;
            if (fields.count < 6) fields.at[fields.count] = {start, static_cast<std::size_t>(place - start)};
            fields.count++;
        }
    }
};

// The number that a field spells; one above 2^64 - 1 counts as that.
static inline std::uint64_t number_in(std::string_view field, std::uint64_t line) {
    std::uint64_t number = 0;
    for (char byte : field) {
        if (!is_digit(byte)) throw Fault{"NotANumber", line};
        bool is_above = __builtin_mul_overflow(number, 10, &number) || __builtin_add_overflow(number, byte - '0', &number);
        if (is_above) number = ~std::uint64_t{0};
    }
    return number;
}

// A graph's text.
struct Roads {
    struct Road {
        std::uint32_t from, to, weight;
    };
    static constexpr char LETTER = 'a';
    static constexpr std::size_t NUMBERS = 3;
    std::uint64_t nodes = 0;
    std::vector<Road> roads;

    // What the problem line says: how many entries follow. `bytes` is the length of the file, where it is known.
    std::uint64_t start(const Fields &fields, std::uint64_t line, std::uint64_t bytes) {
        if (fields.count != 4) throw Fault{"FieldCount", line};
        if (fields.at[1] != "sp") throw Fault{"UnknownLine", line};
        nodes = number_in(fields.at[2], line);
        std::uint64_t entries = number_in(fields.at[3], line);
        if (nodes > MOST_NODES) throw Fault{"TooManyNodes", line};
        if (entries > MOST_ENTRIES) throw Fault{"TooManyArcs", line};
        roads.reserve(entries < bytes / 8 ? entries : bytes / 8);
        return entries;
    }

    void take(const std::uint64_t (&numbers)[3], std::uint64_t line) {
        std::uint64_t from = numbers[0], to = numbers[1], weight = numbers[2];
        if (from - 1 >= nodes || to - 1 >= nodes) throw Fault{"NodeRange", line};
        if (weight > HEAVIEST) throw Fault{"WeightTooBig", line};
        roads.push_back({std::uint32_t(from - 1), std::uint32_t(to - 1), std::uint32_t(weight)});
    }
};

// A text of pairs of so many nodes.
struct Pairs {
    struct Pair {
        std::uint32_t source, target;
    };
    static constexpr char LETTER = 'q';
    static constexpr std::size_t NUMBERS = 2;
    std::uint64_t nodes;
    std::vector<Pair> pairs;

    std::uint64_t start(const Fields &fields, std::uint64_t line, std::uint64_t bytes) {
        if (fields.count != 5) throw Fault{"FieldCount", line};
        if (fields.at[1] != "aux" || fields.at[2] != "sp" || fields.at[3] != "p2p") throw Fault{"UnknownLine", line};
        std::uint64_t entries = number_in(fields.at[4], line);
        if (entries > MOST_ENTRIES) throw Fault{"TooManyArcs", line};
        pairs.reserve(entries < bytes / 6 ? entries : bytes / 6);
        return entries;
    }

    void take(const std::uint64_t (&numbers)[2], std::uint64_t line) {
        std::uint64_t source = numbers[0], target = numbers[1];
        if (source - 1 >= nodes || target - 1 >= nodes) throw Fault{"NodeRange", line};
        pairs.push_back({std::uint32_t(source - 1), std::uint32_t(target - 1)});
    }
};

// Takes an entry's line that isn't plain.
template <class Form> void take_fields(Form &form, const Fields &fields, std::uint64_t line) {
    if (fields.count != Form::NUMBERS + 1) throw Fault{"FieldCount", line};
    std::uint64_t numbers[Form::NUMBERS];
    for (std::size_t i = 0; i < Form::NUMBERS; i++) numbers[i] = number_in(fields.at[i + 1], line);
    form.take(numbers, line);
}

// Reads a whole text.
template <class Form> void read(int file, std::uint64_t bytes, Form &form) {
    Reader reader(file);
    bool has_problem = false;
    std::uint64_t left = 0;
    std::uint64_t numbers[Form::NUMBERS];
    Fields fields;
    for (;;) {
        while (left > 0 && reader.plain_line(Form::LETTER, numbers)) {
            form.take(numbers, reader.line);
            left--;
        }
        if (!reader.any_line(fields)) break;
        if (fields.count == 0 || fields.at[0][0] == 'c') continue;
        bool is_problem = fields.at[0] == "p";
        if (!is_problem && fields.at[0] != std::string_view(&Form::LETTER, 1)) throw Fault{"UnknownLine", reader.line};
        if (is_problem) {
            if (has_problem) throw Fault{"SecondProblemLine", reader.line};
            left = form.start(fields, reader.line, bytes);
            has_problem = true;
        } else {
            if (!has_problem) throw Fault{"NoProblemLine", reader.line};
            if (left == 0) throw Fault{"ArcCount", reader.line};
            take_fields(form, fields, reader.line);
            left--;
        }
    }
    if (!has_problem) throw Fault{"NoProblemLine", reader.line};
    if (left > 0) throw Fault{"ArcCount", reader.line};
}

}  // namespace text
