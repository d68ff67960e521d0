// A table of i64 on standard input, a comma between two cells, read by the C call and by a loop of std::from_chars.
//
//     tables ROUNDS [KIND]
//     tables ROUNDS export FILE    reads a file of that kind by blocks, and adds up its numbers
#include <emmintrin.h>

#include <charconv>
#include <cstdio>
#include <cstring>

#include "jadvolni.hpp"
#include "turns.hpp"

namespace {

using Numbers = Columns<std::int64_t>;

// How a table is written.
struct Kind {
    bool has_returns = false;  // a carriage return stands before each line feed
    bool has_missing = false;  // an empty cell is a missing number
    bool has_quotes = false;   // a cell may stand within quotes
    bool has_text = false;     // the first column isn't read
};

// Whether a byte stands at a place.
bool stands(char byte, const char *at, const char *last) { return at != last && *at == byte; }

// The number at a place. Where one may be missing, no digit is 0 without a bit: the loop sees whether the cell ends there.
template <Kind kind>
std::from_chars_result read_number(const char *at, const char *last, std::size_t row, Column<std::int64_t> &column) {
    auto [stop, fault] = std::from_chars(at, last, column.numbers[row]);
    if constexpr (kind.has_missing) {
        if (fault == std::errc::invalid_argument) {
            column.numbers[row] = 0;
            return {at, std::errc()};
        }
        column.present[row / 8] |= 1 << row % 8;
    }
    return {stop, fault};
}

// The same of a cell. A quote in front of a number asks for one behind it: a number has no others.
template <Kind kind>
std::from_chars_result read_cell(const char *at, const char *last, std::size_t row, Column<std::int64_t> &column) {
    if (!kind.has_quotes || !stands('"', at, last)) return read_number<kind>(at, last, row, column);
    auto [stop, fault] = read_number<kind>(at + 1, last, row, column);
    if (fault != std::errc() || !stands('"', stop, last)) return {stop, std::errc::invalid_argument};
    return {stop + 1, fault};
}

// The numbers of the cells, by a loop around std::from_chars: the least that a user writes for the kind. A wrong cell, or
// a wrong number of them, stops it. All is put in place, as it is in a program with one such loop.
template <Kind kind>
[[gnu::flatten]] std::size_t by_from_chars(const std::string &text, Numbers &columns) {
    const char *at = text.data(), *last = at + text.size();
    for (std::size_t row = 0; row < columns[0].numbers.size(); row++) {
        if constexpr (kind.has_text) {
            at = std::find(at, last, ',');
            if (at++ == last) return row;
        }
        for (std::size_t column = 0; column < columns.size(); column++) {
            auto [stop, fault] = read_cell<kind>(at, last, row, columns[column]);
            bool ends_row = column + 1 == columns.size();
            if (fault != std::errc()) return row;
            if (kind.has_returns && ends_row && !stands('\r', stop++, last)) return row;
            if (!stands(ends_row ? '\n' : ',', stop, last)) return row;
            at = stop + 1;
        }
    }
    return columns[0].numbers.size();
}

// The C call on a part of the text, whose numbers go behind those of the rows before it.
template <Kind kind>
jadvolni::table_result by_part(std::string_view part, bool is_last, std::size_t row, Numbers &columns) {
    std::vector<jadvolni::table_column> targets(kind.has_text);
    std::size_t room = columns[0].numbers.size() - row;
    for (auto &[numbers, present] : columns) {
        targets.push_back(jadvolni::column_into(numbers.data() + row, room));
        if (kind.has_missing) targets.back().present = {present.data(), present.size()};
    }
    jadvolni::table how{};
    how.separator = ',';
    how.has_returns = kind.has_returns;
    how.has_quotes = kind.has_quotes;
    return jadvolni::parse_table_part(part, is_last, how, room, targets);
}

// A number, a day, a text within quotes and an amount with two places: how such a table is written, and where its texts
// stand, which no reader compares.
struct Export {
    std::vector<jadvolni::cell_text> days, purposes;
    jadvolni::table how{};
    jadvolni::fixed amount{};

    explicit Export(std::size_t rows) : days(rows), purposes(rows) {
        how.separator = ',';
        how.has_quotes = 1;
        amount.places = 2;
    }

    // The columns from a row on, whose numbers and amounts have this room.
    std::vector<jadvolni::table_column> columns(std::int64_t *ids, std::int64_t *cents, std::size_t row) {
        std::size_t room = days.size() - row;
        return {jadvolni::column_into(ids + row, room), jadvolni::column_into(days.data() + row, room),
                jadvolni::column_into(purposes.data() + row, room), jadvolni::column_into(cents + row, room, amount)};
    }
};

// The one for the columns of a table, which is made before any time counts.
Export &export_of(const Numbers &columns) {
    static Export made(columns[0].numbers.size());
    return made;
}

// The C call on a part of such a text.
jadvolni::table_result export_part(std::string_view part, bool is_last, std::size_t row, Numbers &columns) {
    Export &made = export_of(columns);
    auto targets = made.columns(columns[0].numbers.data(), columns[1].numbers.data(), row);
    return jadvolni::parse_table_part(part, is_last, made.how, made.days.size() - row, targets);
}

// An amount with two places at a place, in cents.
std::from_chars_result read_amount(const char *at, const char *last, std::int64_t &cents) {
    const std::from_chars_result none{at, std::errc::invalid_argument};
    std::int64_t whole = 0;
    unsigned places = 0;
    auto [point, fault] = std::from_chars(at, last, whole);
    if (fault != std::errc() || last - point < 3 || *point != '.') return none;
    auto [end, wrong] = std::from_chars(point + 1, point + 3, places);
    if (wrong != std::errc() || end != point + 3) return none;
    cents = 100 * whole + (*at == '-' ? -static_cast<std::int64_t>(places) : places);
    return {end, std::errc()};
}

// Such a text by a loop around std::from_chars, as by_from_chars reads the others.
std::size_t export_by_from_chars(const std::string &text, Numbers &columns) {
    Export &made = export_of(columns);
    const char *at = text.data(), *last = at + text.size();
    auto place_of = [&text](const char *start, const char *stop) {
        return jadvolni::cell_text{static_cast<std::size_t>(start - text.data()), static_cast<std::size_t>(stop - start), 0};
    };
    for (std::size_t row = 0; row < columns[0].numbers.size(); row++) {
        auto [stop, fault] = std::from_chars(at, last, columns[0].numbers[row]);
        if (fault != std::errc() || !stands(',', stop, last)) return row;
        const char *day = stop + 1, *end = std::find(day, last, ',');
        if (last - end < 2 || end[1] != '"') return row;
        made.days[row] = place_of(day, end);
        const char *purpose = end + 2;
        for (end = std::find(purpose, last, '"'); end != last && stands('"', end + 1, last);)
            end = std::find(end + 2, last, '"');
        if (end == last || !stands(',', end + 1, last)) return row;
        made.purposes[row] = place_of(purpose, end);
        auto [behind, wrong] = read_amount(end + 2, last, columns[1].numbers[row]);
        if (wrong != std::errc() || !stands('\n', behind, last)) return row;
        at = behind + 1;
    }
    return columns[0].numbers.size();
}

template <auto read_part>
std::size_t by_call(const std::string &text, Numbers &columns) {
    return read_part(text, true, 0, columns).rows();
}

// As of a file: each block is copied behind what was left of the one before.
template <auto read_part>
std::size_t by_blocks(const std::string &text, Numbers &columns) {
    static char block[1 << 16];
    std::size_t row = 0, kept = 0, at = 0;
    while (at < text.size()) {
        std::size_t got = text.copy(block + kept, sizeof block - kept, at);
        at += got;
        auto part = read_part({block, kept + got}, at == text.size(), row, columns);
        if (!part || part.rows() == 0) return row;
        row += part.rows();
        kept += got - part.place();
        std::memmove(block, block + part.place(), kept);
    }
    return row;
}

// How often a byte stands in 64 bytes, as two counts.
__m128i count_of(const char *text, char byte) {
    __m128i found = _mm_setzero_si128();
    for (int lane = 0; lane < 4; lane++) {
        __m128i bytes = _mm_loadu_si128(reinterpret_cast<const __m128i *>(text) + lane);
        found = _mm_sub_epi8(found, _mm_cmpeq_epi8(bytes, _mm_set1_epi8(byte)));
    }
    return _mm_sad_epu8(found, _mm_setzero_si128());
}

// The rows of a text, and nothing of its cells but how many there are: what any reader by such lanes takes at the least.
template <std::size_t unread>
std::size_t by_pass(const std::string &text, Numbers &columns) {
    __m128i feeds = _mm_setzero_si128(), commas = feeds;
    const char *at = text.data(), *last = at + text.size();
    for (; last - at >= 64; at += 64) {
        feeds = _mm_add_epi64(feeds, count_of(at, '\n'));
        commas = _mm_add_epi64(commas, count_of(at, ','));
    }
    auto total = [&](__m128i counts, char byte) {
        std::int64_t halves[2];
        std::memcpy(halves, &counts, sizeof halves);
        return static_cast<std::size_t>(halves[0] + halves[1] + std::count(at, last, byte));
    };
    std::size_t rows = total(feeds, '\n'), separators = columns.size() - 1 + unread;
    return total(commas, ',') == rows * separators ? rows : 0;
}

template <Kind kind>
int measure(const char *rounds) {
    constexpr auto read_part = by_part<kind>;
    std::vector<Peer<std::int64_t>> peers{{"C call", by_call<read_part>}, {"from_chars", by_from_chars<kind>}};
    // The bits of each part begin at a byte, so those of blocks don't go behind each other.
    if (!kind.has_missing) peers.insert(peers.begin() + 1, {"C call, by blocks", by_blocks<read_part>});
    peers.push_back({"one pass over the bytes", by_pass<kind.has_text>, false});
    return take_turns(peers, rounds, kind.has_text);
}

int measure_export(const char *rounds) {
    return take_turns<std::int64_t>({{"C call", by_call<export_part>},
                                     {"C call, by blocks", by_blocks<export_part>},
                                     {"from_chars", export_by_from_chars},
                                     {"one pass over the bytes", by_pass<2>, false}},
                                    rounds, 2);
}

// Reads a file by blocks in each round. Prints what take_turns does of a reader.
int measure_file(const char *rounds, const char *path) {
    static char bytes[1 << 16];
    constexpr std::size_t most = 4096;
    std::vector<std::int64_t> ids(most), cents(most);
    Export made(most);
    auto columns = made.columns(ids.data(), cents.data(), 0);
    double least = 1e300;
    std::uint64_t sum = 0;
    for (int round = std::stoi(rounds); round > 0; round--) {
        std::size_t rows = sum = 0;
        std::FILE *file = std::fopen(path, "rb");
        if (!file) return 1;
        auto read = [file](char *to, std::size_t room) { return static_cast<std::ptrdiff_t>(std::fread(to, 1, room, file)); };
        auto start = std::chrono::steady_clock::now();
        jadvolni::table_blocks blocks(read, bytes, made.how, most, columns);
        for (const jadvolni::table_block &block : blocks) {
            if (!block) return 1;
            rows += block.rows();
            for (std::size_t row = 0; row < block.rows(); row++) sum += static_cast<std::uint64_t>(ids[row] + cents[row]);
        }
        std::chrono::duration<double, std::nano> taken = std::chrono::steady_clock::now() - start;
        std::fclose(file);
        least = std::min(least, taken.count() / static_cast<double>(4 * rows));
    }
    std::cout << "C++: table_blocks\t" << least << '\t' << sum << '\n';
    return 0;
}

const struct {
    std::string_view word;
    int (*measure)(const char *rounds);
} kinds[] = {
    {"plain", measure<Kind{}>},
    {"returns", measure<Kind{.has_returns = true}>},
    {"missing", measure<Kind{.has_missing = true}>},
    {"quotes", measure<Kind{.has_quotes = true}>},
    {"text", measure<Kind{.has_text = true}>},
    {"export", measure_export},
};

}  // namespace

int main(int count, char **words) {
    if (count == 4) return measure_file(words[1], words[3]);
    for (auto &[word, measure] : kinds)
        if ((count == 2 && word == "plain") || (count == 3 && word == words[2])) return measure(words[1]);
    return 2;
}
