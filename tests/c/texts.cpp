// Columns of amounts and of texts in C++: where texts stand, quotes that are doubled, what is missing, and what is
// refused.
#include "jadvolni_columns.hpp"
#include "check.h"
#include "tables.hpp"

#include <algorithm>
#include <array>
#include <cstring>
#include <string>
#include <vector>

using jadvolni::cell_text, jadvolni::column_into, jadvolni::status, jadvolni::text_of;

// Three rows of a bank, of which the second ends in a line feed alone.
static constexpr std::string_view exported =
    "1;\"Rent; \"\"May\"\"\";-1.234,50\r\n365;;7,00\n2;  5 nails ;0,05\r\n";

static jadvolni::table bank()
{
    jadvolni::table how{};
    how.separator = ';';
    how.has_quotes = how.allows_returns = how.allows_blanks = 1;
    return how;
}

static jadvolni::fixed amount()
{
    jadvolni::fixed under{};
    under.integer = jadvolni::standard;
    under.integer.digit_separator = '.';
    under.integer.integer_internal_digit_separator = 1;
    under.point = ',';
    under.places = 2;
    return under;
}

static bool is(const cell_text &text, std::size_t start, std::size_t size, bool has_doubled_quotes = false)
{
    return text.start == start && text.size == size && text.has_doubled_quotes == has_doubled_quotes;
}

// What fold_into makes of a text with so much room, or that it has none.
static std::string folded_in(std::string_view text, const cell_text &cell, std::size_t room)
{
    std::string bytes(room, '.');
    auto folded = jadvolni::fold_into(text, cell, bytes);
    return folded ? std::string(*folded) : "no room " + bytes;
}

static void beside_numbers()
{
    std::array<unsigned short, 4> days{};
    std::vector<cell_text> texts(4);
    long cents[4] = {};
    jadvolni::table_column columns[] = {column_into(days), column_into(texts), column_into(cents, amount())};
    auto read = jadvolni::parse_table(exported, bank(), 4, columns);
    CHECK(read && read.rows() == 3 && read.place() == 58);
    CHECK(days == std::array<unsigned short, 4>{1, 365, 2, 0});
    CHECK(cents[0] == -123450 && cents[1] == 700 && cents[2] == 5 && cents[3] == 0);
    CHECK(is(texts[0], 3, 13, true) && is(texts[1], 33, 0) && is(texts[2], 41, 10) && is(texts[3], 0, 0));
    CHECK(text_of(exported, texts[0]) == "Rent; \"\"May\"\"" && text_of(exported, texts[1]).empty());
    CHECK(text_of(exported, texts[2]) == "  5 nails ");
    CHECK(jadvolni::folded(exported, texts[0]) == "Rent; \"May\"" && jadvolni::folded(exported, texts[1]).empty());
    CHECK(jadvolni::folded(exported, texts[2]) == "  5 nails ");
    CHECK(folded_in(exported, texts[0], 11) == "Rent; \"May\"" && folded_in(exported, texts[2], 0) == "  5 nails ");
}

template <class T>
static void amounts_of()
{
    T numbers[3] = {};
    auto tenths = amount();
    tenths.places = 1, tenths.point = 0, tenths.takes_fewer = 1;
    tenths.integer = jadvolni::standard;
    jadvolni::table_column columns[] = {column_into(numbers, 3, tenths)};
    auto read = jadvolni::parse_table("12.7\n0\n5.\n", commas(), 3, columns);
    CHECK(read.status() == status::empty && read.rows() == 2 && read.place() == 9);
    CHECK(numbers[0] == 127 && numbers[1] == 0 && numbers[2] == 0);
}

static void amounts()
{
    amounts_of<std::uint8_t>(), amounts_of<std::uint16_t>(), amounts_of<std::uint32_t>(), amounts_of<std::uint64_t>();
    amounts_of<std::int8_t>(), amounts_of<std::int16_t>(), amounts_of<std::int32_t>(), amounts_of<std::int64_t>();
    // Begun with {}, their radix is 10.
    jadvolni::fixed cents{};
    cents.places = 2;
    short amounts[2] = {};
    jadvolni::table_column of_cents[] = {column_into(amounts, cents)};
    CHECK(jadvolni::parse_table("-1.05\n07.00", commas(), 2, of_cents) && amounts[0] == -105 && amounts[1] == 700);
    // Without places they are integers, and no point is looked at.
    unsigned char numbers[2] = {};
    auto whole = amount();
    whole.places = 0, whole.point = '-';
    jadvolni::table_column columns[] = {column_into(numbers, whole)};
    CHECK(jadvolni::parse_table("7\n12", commas(), 2, columns).rows() == 2 && numbers[0] == 7 && numbers[1] == 12);
    CHECK(jadvolni::parse_table("1,0", commas(), 2, columns).status() == status::too_many_cells);
}

static void quotes()
{
    cell_text texts[3]{};
    jadvolni::table_column columns[] = {column_into(texts)};
    constexpr std::string_view text = "\"a\"\"\"\"b\"\n\"\"\"\"\n\"\n\"\n";
    CHECK(jadvolni::parse_table(text, bank(), 3, columns).rows() == 3);
    CHECK(is(texts[0], 1, 6, true) && is(texts[1], 10, 2, true) && is(texts[2], 15, 1));
    CHECK(folded_in(text, texts[0], 3) == "no room ..." && folded_in(text, texts[0], 4) == "a\"\"b");
    CHECK(folded_in(text, texts[1], 0) == "no room " && folded_in(text, texts[1], 9) == "\"");
    CHECK(jadvolni::folded(text, texts[0]) == "a\"\"b" && jadvolni::folded(text, texts[1]) == "\"");
    CHECK(text_of(text, texts[2]) == "\n");

    // Elsewhere a quote is a byte as any other.
    constexpr std::string_view plain("a\"\"b\n\xFF\0\"\n\n", 10);
    CHECK(jadvolni::parse_table(plain, commas(), 3, columns).place() == 10);
    CHECK(is(texts[0], 0, 4) && is(texts[1], 5, 3) && is(texts[2], 9, 0));
    CHECK(jadvolni::folded(plain, texts[0]) == "a\"\"b" && text_of(plain, texts[1]) == plain.substr(5, 3));

    // Other bytes, which have no such place.
    CHECK(text_of("12345678", texts[1]) == "678" && text_of("1234567", texts[1]).empty());
    CHECK(text_of("", texts[2]).empty() && text_of(std::string_view(), cell_text{}).empty());
    CHECK(text_of("12", cell_text{1, static_cast<std::size_t>(-1), 1}).empty());
    CHECK(folded_in("12", cell_text{3, 1, 1}, 0).empty() && jadvolni::folded("12", cell_text{3, 1, 1}).empty());
}

static void missing()
{
    constexpr std::string_view text = "a;1\n;2\n\"\";3\nNA;4\n";
    cell_text texts[4]{};
    std::array<std::uint8_t, 1> bits{0xF0};
    jadvolni::table_column columns[] = {column_into(texts), {}};
    columns[0].present = {bits.data(), bits.size()};
    CHECK(jadvolni::parse_table(text, bank(), 4, columns).rows() == 4);
    CHECK(jadvolni::is_present(bits, 0) && !jadvolni::is_present(bits, 1) && bits[0] == 0xF9);
    CHECK(is(texts[0], 0, 1) && is(texts[1], 0, 0) && is(texts[2], 0, 0) && is(texts[3], 12, 2));
    auto marked = bank();
    marked.missing = "NA", marked.missing_len = 2;
    CHECK(jadvolni::parse_table(text, marked, 4, columns).rows() == 4 && bits[0] == 0xF7);
    CHECK(is(texts[0], 0, 1) && is(texts[1], 4, 0) && is(texts[2], 8, 0) && is(texts[3], 0, 0));
}

static void room()
{
    std::vector<cell_text> texts(2), reserved;
    reserved.reserve(2);
    std::int64_t cents[3] = {};
    std::uint8_t bits[1] = {};
    jadvolni::table_column columns[] = {column_into(texts), column_into(cents, amount())};
    constexpr std::string_view text = "a;0,01\nb;0,02\nc;0,03\n";
    auto read = jadvolni::parse_table(text, bank(), 2, columns);
    CHECK(read && read.rows() == 2 && read.place() == 14 && is(texts[1], 7, 1) && cents[1] == 2 && cents[2] == 0);
    read = jadvolni::parse_table(text, bank(), 3, columns);
    CHECK(read.status() == status::invalid_table && read.column() == 0 && read.rows() == 0);
    CHECK(std::strstr(read.message(), "fewer rows than are asked for"));
    columns[0] = column_into(reserved); // which then isn't read
    CHECK(jadvolni::parse_table(text, bank(), 2, columns).rows() == 2 && is(texts[0], 0, 1));

    // What is written twice is refused.
    auto overlaps = [&](const jadvolni::table_column &one, const jadvolni::table_column &other) {
        jadvolni::table_column both[] = {one, other};
        auto answer = jadvolni::parse_table("a;1", bank(), 2, both);
        return answer.status() == status::invalid_table && answer.column() == 1 && std::strstr(answer.message(), "overlaps");
    };
    auto of_texts = column_into(texts), other = column_into(texts.data() + 1, 1), with_bits = column_into(cents);
    CHECK(overlaps(of_texts, of_texts));
    CHECK(overlaps(of_texts, column_into(reinterpret_cast<std::uint8_t *>(&texts[1].has_doubled_quotes), 2)));
    with_bits.present = {reinterpret_cast<std::uint8_t *>(texts.data()), 1};
    CHECK(overlaps(of_texts, with_bits) && overlaps(with_bits, of_texts));
    of_texts.present = with_bits.present = {bits, 1};
    CHECK(overlaps(of_texts, with_bits));
    jadvolni::table_column apart[] = {column_into(texts.data(), 1), other};
    CHECK(jadvolni::parse_table("a;bc", bank(), 1, apart).rows() == 1 && is(texts[0], 0, 1) && is(texts[1], 2, 2));
}

// What is known of a fault, and that all behind it is as it was.
static bool refused(std::string_view text, const jadvolni::fixed &under, status wanted, std::size_t place,
                    std::size_t rows, std::size_t texts_read)
{
    cell_text texts[3] = {{9, 9, 9}, {9, 9, 9}, {9, 9, 9}};
    int cents[3] = {9, 9, 9};
    jadvolni::table_column columns[] = {column_into(texts), column_into(cents, under)};
    auto read = jadvolni::parse_table(text, bank(), 3, columns);
    auto is_read = [](const cell_text &one) { return one.start != 9; };
    auto is_number = [](int number) { return number != 9; };
    return read.status() == wanted && read.place() == place && read.rows() == rows
        && std::find_if_not(texts, texts + 3, is_read) == texts + texts_read
        && std::find_if_not(cents, cents + 3, is_number) == cents + rows;
}

static void faults()
{
    CHECK(refused("a;1,00\r\nbc;2,3x\n", amount(), status::invalid_digit, 14, 1, 2));
    CHECK(refused("a;1,00\nbc\n", amount(), status::too_few_cells, 9, 1, 2));
    CHECK(refused("a;1,00\nb\"c;2,00", amount(), status::misplaced_quote, 8, 1, 1));
    CHECK(refused("\"a\"\";1,00", amount(), status::misplaced_quote, 0, 0, 0));
    auto many = amount(), pointless = amount();
    many.places = 39, pointless.point = '.';
    CHECK(refused("a;1,00", many, status::invalid_places, 0, 0, 0));
    CHECK(refused("a;1,00", pointless, status::invalid_point, 0, 0, 0));

    cell_text texts[9]{};
    int cents[9] = {};
    jadvolni::bad_row bad[9]{};
    jadvolni::table_column columns[] = {column_into(texts), column_into(cents, amount())};
    auto read = jadvolni::parse_table_skipping("a;1,00\nb;2\n\"c\"\"\";3,00\r\n", bank(), 9, columns, bad);
    CHECK(read && read.rows() == 2 && read.bad_rows() == 1 && bad[0].place == 10 && bad[0].status == JADVOLNI_EMPTY);
    CHECK(is(texts[0], 0, 1) && is(texts[1], 12, 3, true) && cents[0] == 100 && cents[1] == 300);
}

// Places count from the start of a text with a header.
static void by_header()
{
    constexpr std::string_view text = "\xEF\xBB\xBFwhat;cents\r\na;1,00\r\n;2,00\r\n\"b\"\"\";x\r\n";
    cell_text texts[4]{};
    int cents[4] = {};
    std::uint8_t bits[1] = {};
    auto of_texts = column_into(texts);
    of_texts.present = {bits, 1};
    jadvolni::columns_by_header columns(text, bank(), {{"cents", column_into(cents, amount())}, {"what", of_texts}});
    auto read = columns.read(text, 4);
    CHECK(read.status() == status::invalid_digit && read.rows() == 2 && read.column() == 1 && read.place() == 36);
    // The text of the wrong row is there, and a missing one stays at place 0.
    CHECK(is(texts[0], 15, 1) && is(texts[1], 0, 0) && is(texts[2], 31, 3, true) && is(texts[3], 0, 0));
    CHECK(text_of(text, texts[0]) == "a" && jadvolni::folded(text, texts[2]) == "b\"");
    CHECK(cents[0] == 100 && cents[1] == 200 && cents[2] == 0 && bits[0] == 5);

    constexpr std::string_view other = "what;cents\n;1\na;x\nb;2\n";
    jadvolni::bad_row bad[1];
    jadvolni::columns_by_header of_other(other, bank(), {{"what", column_into(texts)}, {"cents", column_into(cents)}});
    auto skipping = of_other.read_skipping(other, 4, bad);
    CHECK(skipping.rows() == 2 && skipping.bad_rows() == 1 && skipping.place() == 22);
    // An empty text has a place, as none may be missing.
    CHECK(is(texts[0], 11, 0) && is(texts[1], 18, 1) && cents[1] == 2);

    // A table that is refused leaves them where they are, and so does a column that has numbers.
    texts[0] = {7, 1, 0};
    auto many = amount();
    many.places = 39;
    jadvolni::columns_by_header of_many(other, bank(),
                                        {{"what", column_into(texts)}, {"cents", column_into(cents, many)}});
    CHECK(of_many.read(other, 4).status() == status::invalid_places && is(texts[0], 7, 1));
    auto both = column_into(cents);
    both.text = {texts, 4};
    jadvolni::columns_by_header of_both(other, bank(), {{"cents", both}});
    CHECK(of_both.read("what;cents\n;1\n", 4).rows() == 1 && cents[0] == 1 && is(texts[0], 7, 1));
}

// The texts of the rows with their amounts, by blocks of `size` bytes, `capacity` rows at once. The reader gives `step`
// bytes at once.
static std::string in_blocks(std::string_view text, std::size_t size, std::size_t capacity, std::size_t step)
{
    auto read = [text, step](char *to, std::size_t room) mutable {
        auto front = text.substr(0, std::min(step, room));
        text.remove_prefix(front.size());
        std::copy(front.begin(), front.end(), to);
        return front.size();
    };
    std::vector<char> bytes(size);
    std::vector<cell_text> texts(capacity);
    std::vector<int> cents(capacity);
    std::vector<jadvolni::bad_row> bad(9);
    jadvolni::table_blocks blocks(read, bytes, bank(), capacity);
    auto header = blocks.header();
    jadvolni::columns_by_header columns(*header, bank(),
                                        {{"cents", column_into(cents, amount())}, {"what", column_into(texts)}});
    blocks.read_into(columns);
    blocks.skip_bad_rows(bad);
    std::string shown;
    for (const jadvolni::table_block &block : blocks) {
        for (std::size_t row = 0; row < block.rows(); ++row)
            shown += jadvolni::folded(block.bytes(), texts[row]) + ' ' + std::to_string(cents[row]) + '|';
        if (block.bad_rows()) shown += block.fault(bad[0]).what() + std::string("|");
        if (!block) shown += block.message();
    }
    return shown;
}

static void blocks()
{
    constexpr std::string_view rows = "what;cents\r\na;1,00\n\"b;\"\"\n\"\"\";2,00\r\n;3,00\nlong;4,00";
    for (std::size_t size : {17u, 18u, 20u, 64u})
        for (std::size_t capacity : {1u, 2u, 9u})
            for (std::size_t step : {1u, 3u, 99u})
                CHECK(in_blocks(rows, size, capacity, step) == "a 100|b;\"\n\" 200| 300|long 400|");
    CHECK(in_blocks("what;cents\nab;1,00\nc;x\n", 64, 9, 99)
          == "ab 100|line 3, column 2: \"x\": invalid digit at byte 0 of the cell|");

    // Before a fault they stand in the block that reports it.
    cell_text texts[9]{};
    int numbers[9] = {};
    std::string bytes(16, 0);
    std::string_view left = "a;1\nbc;2\nde;x\n";
    auto read = [&left](char *to, std::size_t room) {
        auto size = std::min(left.size(), room);
        std::copy_n(left.begin(), size, to);
        left.remove_prefix(size);
        return size;
    };
    jadvolni::table_column columns[] = {column_into(texts), column_into(numbers)};
    jadvolni::table_blocks failing(read, bytes, bank(), 9, columns);
    const auto block = failing.begin();
    CHECK(!*block && block->rows() == 2 && block->place() == 12);
    CHECK(text_of(block->bytes(), texts[0]) == "a" && text_of(block->bytes(), texts[2]) == "de");
}

int main()
{
    beside_numbers();
    amounts();
    quotes();
    missing();
    room();
    faults();
    by_header();
    blocks();
    return checked();
}
