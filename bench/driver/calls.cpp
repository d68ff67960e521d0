// Makes the calls of C that bench/calls has counted, so often that callgrind can tell what each takes. Standard input has
// the cases, and standard output what each was answered, as the program crates/calls has them.
#include <algorithm>
#include <array>
#include <cstdint>
#include <iostream>
#include <iterator>
#include <sstream>
#include <string>
#include <vector>

#include "jadvolni.h"

namespace {

// How many turns are counted, and after them how many more. The text is there as often.
constexpr std::size_t few = 2, many = 12;

// The sums of what some calls were answered: of the low 64 bits of numbers, of places and counts, and of statuses.
struct Seen {
    std::uint64_t numbers = 0, places = 0, faults = 0;

    bool operator==(const Seen &other) const {
        return numbers == other.numbers && places == other.places && faults == other.faults;
    }

    Seen times(std::uint64_t count) const { return {numbers * count, places * count, faults * count}; }
};

// How a text is read that has many numbers, in the order in which a case says it, and how a fixed-point number is.
struct How {
    std::size_t separator, rows, columns, has_returns, has_quotes, allows_blanks, skips_empty_rows, width, is_records,
        lacks, is_part, cell, point, places, fewer;
};

struct Case {
    std::string call, type;
    jadvolni_format format{};
    How how{};
    std::string text;
};

// Makes a call several times, each time on another copy of its text. It stays a function of its own, at whose end
// callgrind is asked for a count.
template <class Call>
[[gnu::noinline, gnu::noclone]] Seen take_turns(Call &call, const char *texts, std::size_t size, std::size_t turns) {
    Seen seen;
    for (std::size_t turn = 0; turn < turns; turn++) call(texts + turn * size, size, seen);
    return seen;
}

// Prints what a call answers once, and then over few and over many turns: all answers have to be equal.
template <class Call>
void count(const Case &asked, Call call) {
    std::string texts;
    for (std::size_t turn = 0; turn < many; turn++) texts += asked.text;
    Seen once = take_turns(call, texts.data(), asked.text.size(), 1);
    bool alike = take_turns(call, texts.data(), asked.text.size(), few) == once.times(few);
    alike &= take_turns(call, texts.data(), asked.text.size(), many) == once.times(many);
    if (alike)
        std::cout << once.numbers << ' ' << once.places << ' ' << once.faults << '\n';
    else
        std::cout << "not answered\n";
}

template <class Number>
std::uint64_t low(Number number) {
    return static_cast<std::uint64_t>(number);
}
std::uint64_t low(jadvolni_uint128 number) { return number.low; }
std::uint64_t low(jadvolni_int128 number) { return number.low; }

template <class Number>
using Parse = jadvolni_result (*)(const char *, std::size_t, Number *);
template <class Number>
using ParseUnder = jadvolni_result (*)(const char *, std::size_t, const jadvolni_format *, Number *);
template <class Number>
using ParseColumn = jadvolni_result (*)(const char *, std::size_t, std::uint8_t, const jadvolni_format *, Number *,
                                        std::size_t, std::size_t *);

template <class Number>
void count_parse(const Case &asked, Parse<Number> parse) {
    count(asked, [parse](const char *text, std::size_t size, Seen &seen) {
        Number number{};
        jadvolni_result found = parse(text, size, &number);
        seen.numbers += low(number);
        seen.places += found.place;
        seen.faults += found.status;
    });
}

template <class Number>
void count_parse_under(const Case &asked, ParseUnder<Number> parse) {
    count(asked, [parse, &asked](const char *text, std::size_t size, Seen &seen) {
        Number number{};
        jadvolni_result found = parse(text, size, &asked.format, &number);
        seen.numbers += low(number);
        seen.places += found.place;
        seen.faults += found.status;
    });
}

template <class Number>
void count_column(const Case &asked, ParseColumn<Number> parse) {
    std::vector<Number> numbers(asked.how.rows);
    count(asked, [&](const char *text, std::size_t size, Seen &seen) {
        std::size_t read;
        jadvolni_result found = parse(text, size, static_cast<std::uint8_t>(asked.how.separator), &asked.format,
                                      numbers.data(), numbers.size(), &read);
        if (read > 0) seen.numbers += low(numbers[read - 1]);
        seen.places += found.place + read;
        seen.faults += found.status;
    });
}

// The calls of a type that are named as the case asks.
template <class Number>
struct Calls {
    Parse<Number> whole, front;
    ParseUnder<Number> whole_under, front_under;

    bool answer(const Case &asked) const {
        if (asked.call == "jadvolni_parse") return count_parse(asked, whole), true;
        if (asked.call == "jadvolni_parse_front") return count_parse(asked, front), true;
        if (asked.call == "jadvolni_parse_with_format") return count_parse_under(asked, whole_under), true;
        if (asked.call == "jadvolni_parse_front_with_format") return count_parse_under(asked, front_under), true;
        return false;
    }
};

#define CALLS_OF(name)                                                                                             \
    if (asked.type == #name)                                                                                       \
    return Calls<decltype(number_of(jadvolni_parse_##name))>{jadvolni_parse_##name, jadvolni_parse_##name##_front, \
                                                             jadvolni_parse_##name##_with_format,                  \
                                                             jadvolni_parse_##name##_front_with_format}            \
        .answer(asked)

// The number that a call reads.
template <class Number>
Number number_of(Parse<Number>);

bool answer_single(const Case &asked) {
    CALLS_OF(u8);
    CALLS_OF(u16);
    CALLS_OF(u32);
    CALLS_OF(u64);
    CALLS_OF(u128);
    CALLS_OF(usize);
    CALLS_OF(i8);
    CALLS_OF(i16);
    CALLS_OF(i32);
    CALLS_OF(i64);
    CALLS_OF(i128);
    CALLS_OF(isize);
    return false;
}

bool answer_column(const Case &asked) {
    if (asked.type == "u8") return count_column(asked, jadvolni_parse_u8_column), true;
    if (asked.type == "u16") return count_column(asked, jadvolni_parse_u16_column), true;
    if (asked.type == "u32") return count_column(asked, jadvolni_parse_u32_column), true;
    if (asked.type == "u64") return count_column(asked, jadvolni_parse_u64_column), true;
    if (asked.type == "i8") return count_column(asked, jadvolni_parse_i8_column), true;
    if (asked.type == "i16") return count_column(asked, jadvolni_parse_i16_column), true;
    if (asked.type == "i32") return count_column(asked, jadvolni_parse_i32_column), true;
    if (asked.type == "i64") return count_column(asked, jadvolni_parse_i64_column), true;
    return false;
}

bool answer_literal(const Case &asked) {
    count(asked, [&](const char *text, std::size_t size, Seen &seen) {
        jadvolni_uint128 number{};
        std::size_t suffix = 0;
        jadvolni_result found = jadvolni_parse_literal(text, size, &asked.format, &number, &suffix);
        seen.numbers += number.low;
        seen.places += found.place + suffix;
        seen.faults += found.status;
    });
    return true;
}

// The columns of a table, each with an array of its own, of which that of the case's type is set.
class Columns {
public:
    explicit Columns(const Case &asked)
        : numbers_(asked.how.columns, std::vector<std::uint64_t>(asked.how.rows)),
          present_(asked.how.rows / 8 + 1),
          columns_(asked.how.columns) {
        for (std::size_t index = 0; index < columns_.size(); index++)
            if (asked.how.lacks != 3 && (asked.how.lacks != 2 || index != 1)) set(asked, index);
        if (asked.how.lacks == 1) columns_.back().present = {present_.data(), present_.size()};
    }

    std::vector<jadvolni_table_column> &all() { return columns_; }

private:
    // Types may share an array's memory: nothing but the call writes to it, and nothing reads a number of it.
    void set(const Case &asked, std::size_t index) {
        jadvolni_table_column &column = columns_[index];
        void *room = numbers_[index].data();
        std::size_t rows = asked.how.rows;
        column.format = asked.format;
        if (asked.type == "i64") column.i64 = {static_cast<std::int64_t *>(room), rows};
        if (asked.type == "u64") column.u64 = {static_cast<std::uint64_t *>(room), rows};
        if (asked.type == "i32") column.i32 = {static_cast<std::int32_t *>(room), rows};
        if (asked.type == "u32") column.u32 = {static_cast<std::uint32_t *>(room), rows};
        if (asked.type == "i16") column.i16 = {static_cast<std::int16_t *>(room), rows};
        if (asked.type == "u16") column.u16 = {static_cast<std::uint16_t *>(room), rows};
        if (asked.type == "i8") column.i8 = {static_cast<std::int8_t *>(room), rows};
        if (asked.type == "u8") column.u8 = {static_cast<std::uint8_t *>(room), rows};
    }

    std::vector<std::vector<std::uint64_t>> numbers_;
    std::vector<std::uint8_t> present_;
    std::vector<jadvolni_table_column> columns_;
};

// How a table is written whose cells have these widths, if they have some.
jadvolni_table table_of(const How &how, const std::vector<std::size_t> &widths) {
    jadvolni_table table{};
    table.separator = static_cast<std::uint8_t>(how.separator);
    table.has_returns = how.has_returns;
    table.has_quotes = how.has_quotes;
    table.allows_blanks = how.allows_blanks;
    table.skips_empty_rows = how.skips_empty_rows;
    table.is_records = how.is_records;
    table.widths = widths.data();
    table.width_count = widths.size();
    return table;
}

std::vector<std::size_t> widths_of(const How &how) {
    return std::vector<std::size_t>(how.width > 0 ? how.columns : 0, how.width);
}

bool answer_table(const Case &asked) {
    const How &how = asked.how;
    Columns columns(asked);
    std::vector<std::size_t> widths = widths_of(how);
    jadvolni_table table = table_of(how, widths);
    auto &all = columns.all();
    count(asked, [&](const char *text, std::size_t size, Seen &seen) {
        jadvolni_table_result found =
            jadvolni_parse_table(text, size, !how.is_part, &table, how.rows, all.data(), all.size());
        seen.places += found.rows + found.column + found.place;
        seen.faults += found.status;
    });
    return true;
}

// Calls that the baseline's library lacks: bench/calls defines HAS_NEW if this one has them.
#ifdef HAS_NEW

template <class Number>
using ParseFixed = jadvolni_result (*)(const char *, std::size_t, const jadvolni_fixed *, Number *);

template <class Number>
bool count_fixed(const Case &asked, ParseFixed<Number> whole, ParseFixed<Number> front) {
    jadvolni_fixed fixed{};
    fixed.integer = asked.format;
    fixed.point = static_cast<std::uint8_t>(asked.how.point);
    fixed.places = static_cast<std::uint8_t>(asked.how.places);
    fixed.takes_fewer = asked.how.fewer != 0;
    ParseFixed<Number> parse = asked.call == "jadvolni_parse_fixed" ? whole : front;
    count(asked, [parse, &fixed](const char *text, std::size_t size, Seen &seen) {
        Number number{};
        jadvolni_result found = parse(text, size, &fixed, &number);
        seen.numbers += low(number);
        seen.places += found.place;
        seen.faults += found.status;
    });
    return true;
}

bool answer_fixed(const Case &asked) {
    if (asked.type == "i64")
        return count_fixed<std::int64_t>(asked, jadvolni_parse_i64_fixed, jadvolni_parse_i64_fixed_front);
    if (asked.type == "u32")
        return count_fixed<std::uint32_t>(asked, jadvolni_parse_u32_fixed, jadvolni_parse_u32_fixed_front);
    if (asked.type == "i128")
        return count_fixed<jadvolni_int128>(asked, jadvolni_parse_i128_fixed, jadvolni_parse_i128_fixed_front);
    return false;
}

bool answer_skipping(const Case &asked) {
    const How &how = asked.how;
    Columns columns(asked);
    std::vector<std::size_t> widths = widths_of(how);
    jadvolni_table table = table_of(how, widths);
    std::array<jadvolni_bad_row, 4> bad{};
    auto &all = columns.all();
    count(asked, [&](const char *text, std::size_t size, Seen &seen) {
        jadvolni_skipping_result found = jadvolni_parse_table_skipping(
            text, size, !how.is_part, &table, how.rows, all.data(), all.size(), bad.data(), bad.size());
        seen.places += found.rows + found.column + found.place + found.bad_rows;
        seen.faults += found.status;
    });
    return true;
}

// What the cells of a column have: numbers of the case's type, texts, or fixed-point numbers of the type.
enum class Cells { numbers, texts, amounts };

// That of a column, by the call. A bank's export has one of each.
Cells cells_of(const Case &asked, std::size_t index) {
    if (asked.call == "jadvolni_parse_texts") return Cells::texts;
    if (asked.call == "jadvolni_parse_amounts") return Cells::amounts;
    return index == 1 ? Cells::texts : index == 2 ? Cells::amounts : Cells::numbers;
}

// The columns of a table whose cells aren't all numbers.
class MixedColumns : public Columns {
public:
    explicit MixedColumns(const Case &asked)
        : Columns(asked), texts_(asked.how.columns, std::vector<jadvolni_cell_text>(asked.how.rows)) {
        for (std::size_t index = 0; index < texts_.size(); index++) {
            jadvolni_table_column &column = all()[index];
            Cells cells = cells_of(asked, index);
            if (cells == Cells::texts) {
                auto present = column.present;
                column = {};
                column.text = {texts_[index].data(), texts_[index].size()};
                column.present = present;
            } else if (cells == Cells::amounts) {
                column.point = static_cast<std::uint8_t>(asked.how.point);
                column.places = static_cast<std::uint8_t>(asked.how.places);
                column.takes_fewer = asked.how.fewer != 0;
            }
        }
    }

    // The text of the first row of a column.
    const jadvolni_cell_text &first(std::size_t index) const { return texts_[index][0]; }

private:
    std::vector<std::vector<jadvolni_cell_text>> texts_;
};

bool answer_mixed(const Case &asked) {
    const How &how = asked.how;
    MixedColumns columns(asked);
    auto &all = columns.all();
    const jadvolni_cell_text &first = columns.first(all.size() / 2);
    jadvolni_table table = table_of(how, {});
    count(asked, [&](const char *text, std::size_t size, Seen &seen) {
        jadvolni_table_result found =
            jadvolni_parse_table(text, size, !how.is_part, &table, how.rows, all.data(), all.size());
        seen.places += found.rows + found.column + found.place + first.start + first.size;
        seen.faults += found.status;
    });
    return true;
}

// The suffixes of C and of Rust, with those types that these have on most machines.
const jadvolni_suffix suffixes[] = {
    JADVOLNI_SUFFIX("", JADVOLNI_TYPE_I32),     JADVOLNI_SUFFIX("U", JADVOLNI_TYPE_U32),
    JADVOLNI_SUFFIX("L", JADVOLNI_TYPE_I64),    JADVOLNI_SUFFIX("UL", JADVOLNI_TYPE_U64),
    JADVOLNI_SUFFIX("u8", JADVOLNI_TYPE_U8),    JADVOLNI_SUFFIX("u32", JADVOLNI_TYPE_U32),
    JADVOLNI_SUFFIX("i64", JADVOLNI_TYPE_I64),  JADVOLNI_SUFFIX("usize", JADVOLNI_TYPE_USIZE),
};

bool answer_typed_literal(const Case &asked) {
    count(asked, [&](const char *text, std::size_t size, Seen &seen) {
        jadvolni_uint128 number{};
        std::size_t suffix = 0, entry = 0;
        jadvolni_result found = jadvolni_parse_typed_literal(text, size, &asked.format, suffixes,
                                                             std::size(suffixes), &number, &suffix, &entry);
        seen.numbers += number.low;
        seen.places += found.place + suffix + entry;
        seen.faults += found.status;
    });
    return true;
}

bool answer_row_place(const Case &asked) {
    jadvolni_table table = table_of(asked.how, {});
    count(asked, [&](const char *text, std::size_t size, Seen &seen) {
        jadvolni_row_result found = jadvolni_row_place(text, size, &table, asked.how.cell);
        seen.places += found.start + found.stop;
        seen.faults += found.status;
    });
    return true;
}

bool answer_line_column(const Case &asked) {
    count(asked, [&](const char *text, std::size_t size, Seen &seen) {
        jadvolni_position found = jadvolni_line_column(text, size, size);
        seen.places += found.line + found.column;
    });
    return true;
}

bool answer_new(const Case &asked) {
    if (asked.call == "jadvolni_parse_table_skipping") return answer_skipping(asked);
    if (asked.call == "jadvolni_parse_export" || asked.call == "jadvolni_parse_texts"
        || asked.call == "jadvolni_parse_amounts")
        return answer_mixed(asked);
    if (asked.call == "jadvolni_parse_typed_literal") return answer_typed_literal(asked);
    if (asked.call == "jadvolni_row_place") return answer_row_place(asked);
    if (asked.call == "jadvolni_line_column") return answer_line_column(asked);
    return answer_fixed(asked);
}

#else

bool answer_new(const Case &) { return false; }

#endif

bool answer_nothing(const Case &asked) {
    count(asked, [](const char *, std::size_t size, Seen &seen) { seen.places += size; });
    return true;
}

bool answer(const Case &asked) {
    if (asked.call == "jadvolni_parse_column") return answer_column(asked);
    if (asked.call == "jadvolni_parse_table") return answer_table(asked);
    if (asked.call == "jadvolni_parse_literal") return answer_literal(asked);
    if (asked.call == "nothing") return answer_nothing(asked);
    return answer_single(asked) || answer_new(asked);
}

// The numbers of a word, with commas between them.
template <std::size_t Count>
std::array<std::size_t, Count> numbers_in(const std::string &word) {
    std::array<std::size_t, Count> numbers{};
    std::istringstream from(word);
    char comma;
    for (std::size_t &number : numbers) from >> number >> comma;
    return numbers;
}

// The format whose fields are these, in their order: each is a byte.
jadvolni_format format_in(const std::string &word) {
    jadvolni_format format{};
    auto numbers = numbers_in<18>(word);
    std::copy(numbers.begin(), numbers.end(), reinterpret_cast<std::uint8_t *>(&format));
    return format;
}

How how_in(const std::string &word) {
    auto it = numbers_in<15>(word);
    return {it[0], it[1], it[2],  it[3],  it[4],  it[5],  it[6], it[7],
            it[8], it[9], it[10], it[11], it[12], it[13], it[14]};
}

// The next case: `CALL TYPE FORMAT HOW SIZE TEXT`, where the text has SIZE bytes, and a line feed follows.
bool next(std::istream &from, Case &asked) {
    std::string format, how;
    std::size_t size;
    if (!(from >> asked.call >> asked.type >> format >> how >> size)) return false;
    asked.format = format_in(format);
    asked.how = how_in(how);
    asked.text.resize(size);
    from.ignore();
    from.read(asked.text.data(), static_cast<std::streamsize>(size));
    from.ignore();
    return static_cast<bool>(from);
}

}  // namespace

int main() {
    Case asked;
    while (next(std::cin, asked))
        if (!answer(asked)) std::cout << "not answered\n";
    return std::cout.flush() ? 0 : 1;
}
