// Tables in C++: whole, in blocks from a reader that gives little or fails, by widths, and with missing numbers.
#include "jadvolni_tables.hpp"
#include "check.h"

#include <algorithm>
#include <string>
#include <vector>

using jadvolni::status;

static void tables()
{
    std::vector<long> cents(2, 77);
    unsigned short days[2] = {77, 77};
    jadvolni::table ledger{};
    ledger.separator = ';';
    ledger.has_returns = 1;
    jadvolni::table_column columns[] = {jadvolni::column_into(days), {}, jadvolni::column_into(cents)};
    auto read = jadvolni::parse_table("1;rent;-80000\r\n365;;7\r\n2;;x", ledger, 2, columns);
    CHECK(read && read.rows() == 2 && read.place() == 23 && read.column() == 0);
    CHECK(days[0] == 1 && days[1] == 365 && cents[0] == -80000 && cents[1] == 7);
    read = jadvolni::parse_table_part("3;;4\r\n5;;", false, ledger, 2, columns);
    CHECK(read && read.rows() == 1 && read.place() == 6 && days[0] == 3 && days[1] == 365);
    read = jadvolni::parse_table("6;;5\r\n65536;;4\r\n", ledger, 2, columns);
    CHECK(!read && read.status() == status::overflow && read.rows() == 1 && read.column() == 0 && read.place() == 10);
    CHECK(jadvolni::parse_table("1;2", ledger, 2, columns).status() == status::too_few_cells);
    CHECK(jadvolni::parse_table("1;;2;", ledger, 2, columns).status() == status::too_many_cells);
    CHECK(jadvolni::parse_table("1;;2\n", ledger, 2, columns).status() == status::missing_return);
    CHECK(jadvolni::parse_table("", ledger, 3, columns).status() == status::invalid_table);
    columns[2] = jadvolni::column_into(cents, jadvolni_format_of_radix(1));
    read = jadvolni::parse_table("", ledger, 2, columns);
    CHECK(read.status() == status::invalid_mantissa_radix && read.column() == 2);
    std::vector<long> reserved;
    reserved.reserve(2);
    columns[2] = jadvolni::column_into(reserved);
    read = jadvolni::parse_table("1;;2\r\n", ledger, 2, columns);
    CHECK(read.status() == status::invalid_table && read.column() == 2 && read.rows() == 0 && read.place() == 0);
    CHECK(jadvolni::parse_table("1;;2\r\n", ledger, 0, columns).place() == 0);
}

static jadvolni::table ledger_of_lines()
{
    jadvolni::table ledger{};
    ledger.separator = ';';
    ledger.skips_empty_rows = 1;
    return ledger;
}

// What a table of blocks gives: all its rows in a line each, and what is wrong at last. The reader gives
// a fixed number of bytes at once, and fails where it has to.
struct reader {
    std::string_view text;
    std::size_t step, fails_at;
    std::ptrdiff_t operator()(char *to, std::size_t room)
    {
        if (fails_at-- == 0) return -1;
        auto front = text.substr(0, std::min(step, room));
        text.remove_prefix(front.size());
        std::copy(front.begin(), front.end(), to);
        return std::ptrdiff_t(front.size());
    }
};

static std::string in_table_blocks(reader read, std::size_t size, std::size_t capacity, int loops = 1,
                                   const jadvolni::table &how = ledger_of_lines())
{
    std::string shown, bytes(size, 'x');
    std::vector<short> days(capacity, 77);
    std::vector<long> cents(capacity, 77);
    jadvolni::table_column columns[] = {jadvolni::column_into(days), {}, jadvolni::column_into(cents)};
    jadvolni::table_blocks blocks(read, bytes, how, capacity, columns);
    std::size_t rows = 0;
    for (; loops > 0; --loops)
        for (const jadvolni::table_block &block : blocks) {
            CHECK(block.first_row() == rows && block.rows() <= capacity && (!block || block.rows() > 0));
            for (std::size_t k = 0; k < block.rows(); ++k, ++rows)
                shown += std::to_string(days[k]) + ' ' + std::to_string(cents[k]) + '\n';
            if (!block)
                shown += block.message() + (' ' + std::to_string(block.first_row() + block.rows())) + ' '
                    + std::to_string(block.column()) + ' ' + std::to_string(block.place()) + '\n';
        }
    return shown;
}

static void tables_in_blocks()
{
    std::string_view rows = "1;rent;-80000\n\n365;;7\n\n\n12;a;0", worse = "1;a;2\n\n3;b;4\n5;;6x\n7;;8\n";
    std::string all = "1 -80000\n365 7\n12 0\n", fault = "1 2\n3 4\ninvalid digit 2 2 17\n";
    auto never = std::size_t(-1);
    for (std::size_t size = 14; size < 40; ++size)
        for (std::size_t step : {1u, 5u, 13u, 99u})
            for (std::size_t capacity : {1u, 2u, 9u}) {
                CHECK(in_table_blocks({rows, step, never}, size, capacity) == all);
                CHECK(in_table_blocks({worse, step, never}, size, capacity) == fault);
                CHECK(in_table_blocks({"\n\n", step, never}, size, capacity).empty());
            }
    // A row that is longer than the bytes, and no room at all.
    CHECK(in_table_blocks({rows, 99, never}, 13, 9) == "a row has no room 0 0 0\n");
    CHECK(in_table_blocks({"1;;2\n\n33;;4\n", 1, never}, 5, 9) == "1 2\na row has no room 1 0 6\n");
    CHECK(in_table_blocks({rows, 99, never}, 0, 9) == "a row has no room 0 0 0\n");
    const std::string none = "the capacity is 0: there is room for no row 0 0 ";
    for (std::size_t step : {1u, 99u}) {
        CHECK(in_table_blocks({rows, step, never}, 40, 0) == none + "0\n");
        CHECK(in_table_blocks({"\n\n1;;2\n", step, never}, 40, 0) == none + "2\n");
        CHECK(in_table_blocks({"\n\n", step, never}, 40, 0).empty());
    }
    // It is a range of the standard library.
    std::vector<char> bytes(20);
    std::vector<jadvolni::table_column> unread(3);
    jadvolni::table_blocks blocks(reader{"1;2;3\n4;5;6\n7;8;9\n", 99, never}, bytes, ledger_of_lines(), 2, unread);
    CHECK(std::distance(blocks.begin(), blocks.end()) == 2 && blocks.begin() == blocks.end());
    // A reader that answers more than there is room for.
    jadvolni::table_blocks beyond([](char *, std::size_t room) { return room + 1; }, bytes, ledger_of_lines(), 2, unread);
    CHECK(beyond.begin()->message() == std::string_view("reading has failed"));
    // Where reading fails nothing is lost, and no row comes twice.
    for (std::size_t fails_at = 0; fails_at <= rows.size(); ++fails_at) {
        auto shown = in_table_blocks({rows, 1, fails_at}, 20, 9, 2);
        auto from = shown.find("reading has failed");
        CHECK(from != shown.npos && shown.erase(from, shown.find('\n', from) + 1 - from) == all);
    }
    // A step is one wherever its sign stands.
    jadvolni::table_blocks rest(reader{"1;2;3\n4;5;6\n", 99, never}, bytes, ledger_of_lines(), 1, unread);
    auto at = rest.begin();
    at++;
    CHECK(at->first_row() == 1);
}

// Bits of a column, and those of rows that no number was read for, which stay.
static void bits()
{
    std::vector<std::uint8_t> present(2, 0xFF);
    signed char numbers[9] = {77, 77, 77, 77, 77, 77, 77, 77, 77};
    jadvolni::table lines{};
    jadvolni::table_column columns[] = {jadvolni::column_into(numbers)};
    columns[0].present = {present.data(), present.size()};
    CHECK(jadvolni::parse_table("-1\n\n3\n\n\n6\n7\n8\n", lines, 9, columns).rows() == 8);
    CHECK(numbers[0] == -1 && numbers[1] == 0 && numbers[4] == 0 && numbers[7] == 8 && numbers[8] == 77);
    std::string shown;
    for (std::size_t row = 0; row < 16; ++row) shown += jadvolni::is_present(present, row) ? '1' : '0';
    CHECK(shown == "1010011111111111");
    const std::uint8_t two[] = {0x80, 0x01};
    CHECK(jadvolni::is_present(two, 7) && jadvolni::is_present(two, 8));
    CHECK(!jadvolni::is_present(two, 6) && !jadvolni::is_present(two, 15));
}

// Cells of given widths, in lines and in records, and what is wrong with them.
static const std::size_t widths[] = {3, 4, 6};

static jadvolni::table fixed(bool is_records)
{
    jadvolni::table fixed{};
    fixed.allows_blanks = 1;
    fixed.is_records = is_records;
    fixed.widths = widths;
    fixed.width_count = std::size(widths);
    return fixed;
}

static void tables_by_widths()
{
    unsigned short days[2] = {77, 77};
    int cents[2] = {77, 77};
    jadvolni::table_column columns[] = {jadvolni::column_into(days), {}, jadvolni::column_into(cents)};
    auto is = [](const jadvolni::table_result &read, status wanted, std::size_t column, std::size_t rows, std::size_t place) {
        return read.status() == wanted && read.column() == column && read.rows() == rows && read.place() == place;
    };
    auto read = [&](std::string_view text, const jadvolni::table &how) { return jadvolni::parse_table(text, how, 2, columns); };
    CHECK(is(read("365rent-80000\n 36bank  1250\n", fixed(false)), status::ok, 0, 2, 28));
    CHECK(days[0] == 365 && days[1] == 36 && cents[0] == -80000 && cents[1] == 1250);
    CHECK(is(read("  1rent    -5  2bank     7", fixed(true)), status::ok, 0, 2, 26));
    CHECK(days[0] == 1 && days[1] == 2 && cents[0] == -5 && cents[1] == 7);
    CHECK(is(read("365rent-80000x\n", fixed(false)), status::too_many_cells, 3, 0, 13));
    CHECK(is(read("365rent\n", fixed(false)), status::too_few_cells, 2, 0, 7));
    CHECK(is(read("\n", fixed(false)), status::too_few_cells, 0, 0, 0));
    CHECK(is(read("365rent-8000x\n", fixed(false)), status::invalid_digit, 2, 0, 12));
    CHECK(is(read("  8rent-80000  9ba", fixed(true)), status::too_few_cells, 1, 1, 18));
    CHECK(days[0] == 8 && days[1] == 9 && cents[0] == -80000 && cents[1] == 7);
    CHECK(is(jadvolni::parse_table_part("  8rent-80000  9ba", false, fixed(true), 2, columns), status::ok, 0, 1, 13));
    auto none = fixed(true), two = fixed(false);
    none.width_count = 0;
    two.width_count = 2;
    CHECK(is(read("", none), status::invalid_table, 0, 0, 0) && is(read("", two), status::invalid_table, 0, 0, 0));
    // In blocks of each size that holds a row.
    std::string_view rows = "  1rent    -5  2bank     7  3food     0", all = "1 -5\n2 7\n3 0\n";
    for (std::size_t size = 13; size < 40; ++size)
        for (std::size_t step : {1u, 12u, 99u})
            for (std::size_t capacity : {1u, 2u, 9u}) {
                CHECK(in_table_blocks({rows, step, 99}, size, capacity, 1, fixed(true)) == all);
                CHECK(in_table_blocks({rows.substr(0, 38), step, 99}, size, capacity, 1, fixed(true))
                      == "1 -5\n2 7\ntoo few cells 2 2 38\n");
            }
    CHECK(in_table_blocks({rows, 99, 99}, 12, 9, 1, fixed(true)) == "a row has no room 0 0 0\n");
}

// A column as a table of one: lines that end either way, blanks, numbers that may be missing, and amounts.
static void columns_of_lines()
{
    std::vector<std::int64_t> values(9, 77);
    std::uint8_t bits[1] = {0xFF};
    jadvolni::fixed amount{};
    amount.places = 2;
    jadvolni::table lines{}, returns{};
    lines.separator = returns.separator = '\n';
    lines.allows_returns = lines.allows_blanks = returns.has_returns = 1;
    auto cents = jadvolni::column_into(values, amount), bare = cents;
    cents.present = {bits, std::size(bits)};
    auto read = jadvolni::parse_column("12.50\r\n\n -0.05\t\n\r\n1000.00", lines, cents);
    CHECK(read && read.count() == 5 && read.place() == 25 && bits[0] == 0xF5);
    CHECK(values[0] == 1250 && values[1] == 0 && values[2] == -5 && values[3] == 0 && values[4] == 100000 && values[5] == 77);
    // As far as there is room: of the bits, of the array, and of a column that isn't read.
    read = jadvolni::parse_column(std::string(18, '\n'), lines, cents);
    CHECK(read && read.count() == 8 && read.place() == 8 && bits[0] == 0 && values[7] == 0 && values[8] == 77);
    read = jadvolni::parse_column("1.00\n2.00\nx", lines, jadvolni::column_into(values.data(), 2, amount));
    CHECK(read && read.count() == 2 && read.place() == 10 && values[1] == 200 && values[2] == 0);
    read = jadvolni::parse_column("x", lines, {});
    CHECK(read && read.count() == 0 && read.place() == 0);
    jadvolni::cell_text texts[2];
    read = jadvolni::parse_column(std::string_view("a,\0\"\n b", 7), lines, jadvolni::column_into(texts));
    CHECK(read && read.count() == 2 && texts[0].size == 4 && texts[1].start == 5 && texts[1].size == 2);
    // What is wrong: a number, a missing return, a missing number, and a separator that is none.
    read = jadvolni::parse_column("1.00\n2.005\n", lines, bare);
    CHECK(read.status() == status::invalid_digit && read.count() == 1 && read.place() == 9 && values[0] == 100);
    read = jadvolni::parse_column("1.00\r\n2.00\n", returns, bare);
    CHECK(read.status() == status::missing_return && read.count() == 1 && read.place() == 10);
    read = jadvolni::parse_column("1.00\r\n\r\n", returns, bare);
    CHECK(read.status() == status::empty && read.count() == 1 && read.place() == 6);
    read = jadvolni::parse_column("1.00,2.00\n", lines, bare);
    CHECK(read.status() == status::invalid_digit && read.count() == 0 && read.place() == 4);
    // What is refused: a description, and an array that overlaps with its bits.
    amount.places = 39;
    read = jadvolni::parse_column("1", lines, jadvolni::column_into(values, amount));
    CHECK(read.status() == status::invalid_places && read.count() == 0 && read.place() == 0);
    std::uint8_t both[2] = {};
    auto overlapping = jadvolni::column_into(both);
    overlapping.present = {both, 1};
    CHECK(jadvolni::parse_column("1", lines, overlapping).status() == status::invalid_table);
}

int main()
{
    columns_of_lines();
    tables();
    tables_in_blocks();
    bits();
    tables_by_widths();
    return checked();
}
