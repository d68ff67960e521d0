// Tables in blocks: from a source of single bytes, with quotes that stay open, with a header; and what is said of
// columns that can't be read.
#include "jadvolni_blocks.hpp"
#include "check.h"
#include "tables.hpp"

#include <algorithm>
#include <random>
#include <string>
#include <vector>

using jadvolni::status;

// Hands out a few bytes at once, and counts its calls. Behind the text's end it answers 0, and where it is asked
// for, it fails in every second call.
struct source {
    std::string_view text;
    std::size_t step, *calls;
    bool fails = false;
    std::ptrdiff_t operator()(char *to, std::size_t room)
    {
        if (++*calls % 2 == 1 && fails) return -1;
        auto front = text.substr(0, std::min(step, room));
        text.remove_prefix(front.size());
        std::copy(front.begin(), front.end(), to);
        return std::ptrdiff_t(front.size());
    }
};

// The numbers of the second of two columns, and what is wrong at last.
static std::string read(std::string_view text, std::size_t step, std::size_t size, const jadvolni::table &how)
{
    std::size_t calls = 0;
    std::vector<char> bytes(size);
    int numbers[4] = {};
    jadvolni::table_column columns[] = {{}, jadvolni::column_into(numbers)};
    jadvolni::table_blocks blocks(source{text, step, &calls, false}, bytes, how, 4, columns);
    std::string shown;
    for (const jadvolni::table_block &block : blocks) {
        for (std::size_t row = 0; row < block.rows(); ++row) shown += std::to_string(numbers[row]) + ' ';
        if (!block) shown += std::string(block.message()) + " at " + std::to_string(block.place());
    }
    return shown;
}

// Rows of megabytes, byte by byte: a reader that looked at a row's bytes again for each new one would need hours.
static void byte_by_byte()
{
    const std::size_t length = 1 << 20;
    for (char fill : {'x', '\n', '"'}) {
        std::string text = '"' + std::string(length, fill) + "\",7\nx,8\n";
        CHECK(read(text, 1, length + 100, commas(true)) == "7 8 ");
        CHECK(read(text, 3, length + 100, commas(true)) == "7 8 ");
    }
    CHECK(read(std::string(length, 'x') + ",7\n", 1, length + 100, commas(false)) == "7 ");
    auto empty = commas(false);
    empty.skips_empty_rows = 1;
    CHECK(read(std::string(length, '\n') + "x,7", 1, 10, empty) == "7 ");
    static const std::size_t widths[] = {length, 2};
    auto records = commas(false);
    records.widths = widths, records.width_count = 2, records.is_records = 1;
    CHECK(read(std::string(length, '\n') + "12", 1, length + 2, records) == "12 ");
    // The same from a source that fails between two bytes.
    std::string text = '"' + std::string(length, '\n') + "\",7\nx,8\n", bytes(length + 100, ' ');
    std::size_t calls = 0, rows = 0, failures = 0;
    int numbers[4] = {};
    jadvolni::table_column columns[] = {{}, jadvolni::column_into(numbers)};
    jadvolni::table_blocks blocks(source{text, 1, &calls, true}, bytes, commas(true), 4, columns);
    for (std::size_t before = calls + 1; before != calls;) {
        before = calls;
        for (const jadvolni::table_block &block : blocks) rows += block.rows(), failures += !block;
    }
    CHECK(rows == 2 && numbers[0] == 8 && failures == text.size() + 1);
}

// A row is handed over as soon as it ends: none waits for bytes that may be far away.
static void at_once()
{
    std::string_view text = "a,1\n\"b\n\"\"\",2\ncccccccc,3\n", ends = text;
    std::size_t calls = 0;
    std::vector<char> bytes(100);
    int numbers[4] = {};
    jadvolni::table_column columns[] = {{}, jadvolni::column_into(numbers)};
    jadvolni::table_blocks blocks(source{text, 1, &calls, false}, bytes, commas(true), 4, columns);
    auto block = blocks.begin();
    for (std::size_t stop : {4u, 13u, 24u}) {
        CHECK(block->rows() == 1 && block->place() == stop && calls == stop && ends[stop - 1] == '\n');
        ++block;
    }
    CHECK(block == blocks.end());
}

// Blocks that are moved between two loops go on where the first one stopped.
static void moved()
{
    std::size_t calls = 0;
    std::vector<char> bytes(8);
    int numbers[1] = {};
    jadvolni::table_column columns[] = {{}, jadvolni::column_into(numbers)};
    jadvolni::table_blocks blocks(source{"a,1\nb,2\nc,3\n", 3, &calls, false}, bytes, commas(false), 1, columns);
    CHECK(blocks.begin()->rows() == 1 && numbers[0] == 1);
    auto others = std::move(blocks);
    CHECK(others.begin()->rows() == 1 && numbers[0] == 2);
    blocks = std::move(others);
    CHECK(blocks.begin()->rows() == 1 && numbers[0] == 3 && blocks.begin() == blocks.end());
}

static void open_quotes()
{
    auto is_open = [](std::string_view text, std::size_t size, std::size_t place) {
        auto wanted = "a row has no room: a quote isn't closed at " + std::to_string(place);
        for (std::size_t step : {1u, 7u, 99u}) {
            auto shown = read(text, step, size, commas(true));
            CHECK(shown == wanted || shown == "1 " + wanted);
        }
    };
    is_open("\"abcdefghijklmnop\n", 12, 0);
    is_open("x,1\n\"abc,2\nd,3\ne,4\n", 12, 4);
    is_open("x,1\nabc,\"2\nd,3\ne,4\n", 12, 8);
    is_open("x,1\n\"\",\"\"\"a\"\"\nb\nccccccccccccccc", 12, 7);
    is_open("x,1\n\"a\"\"b\nb\nccccccccccccccc", 10, 4);
    CHECK(read("\"abcdefghijk\",12345\n", 1, 12, commas(true)) == "a row has no room: a quote isn't closed at 0");
    CHECK(read("\"ab\"cdefghijkl,12345\n", 1, 12, commas(true)) == "a row has no room at 0");
    CHECK(read("\"abcdefghijklmnop\n", 1, 12, commas(false)) == "a row has no room at 0");
}

// If a column is refused, the message names the broken condition, for a whole text and in blocks.
static void refused_columns()
{
    auto says = [](const std::vector<jadvolni::table_column> &given, std::size_t rows, std::size_t column, const char *wanted) {
        auto columns = given;
        auto answer = jadvolni::parse_table("1,2\n", commas(false), rows, columns);
        CHECK(answer.status() == status::invalid_table && answer.column() == column && !answer.rows());
        CHECK(std::strstr(answer.message(), wanted));
        std::size_t calls = 0;
        char bytes[9];
        jadvolni::table_blocks blocks(source{"1,2\n", 9, &calls, false}, bytes, commas(false), rows, columns);
        CHECK(blocks.begin()->column() == column && std::strstr(blocks.begin()->message(), wanted));
    };
    int numbers[4], others[4];
    std::vector<int> reserved;
    reserved.reserve(4);
    std::uint8_t bits[1];
    auto column = jadvolni::column_into(numbers), other = jadvolni::column_into(others);
    says({{}, jadvolni::column_into(reserved)}, 4, 1, "no array that has room");
    says({{}, column}, 5, 1, "fewer rows than are asked for");
    says({column, column}, 4, 1, "overlaps");
    says({column, jadvolni::column_into(numbers + 3, 4)}, 4, 1, "overlaps");
    other.present = {reinterpret_cast<std::uint8_t *>(numbers), 4};
    says({column, other}, 4, 1, "overlaps");
    says({other, column}, 4, 1, "overlaps");
    other.present = {reinterpret_cast<std::uint8_t *>(others), 4};
    says({column, other}, 4, 1, "overlaps");
    column.present = other.present = {bits, 1};
    other.present.bytes = bits;
    says({column, other}, 4, 1, "overlaps");
    column.present = {nullptr, 0};
    // Where rows of one array lie behind each other, none is written twice.
    jadvolni::table_column apart[] = {jadvolni::column_into(numbers, 4), jadvolni::column_into(numbers + 2, 2)};
    CHECK(jadvolni::parse_table("1,2\n", commas(false), 2, apart).rows() == 1 && numbers[0] == 1 && numbers[2] == 2);
    // What isn't written overlaps with nothing: the bits of a column that isn't read, or none.
    jadvolni::table_column unread{}, bare = jadvolni::column_into(others);
    unread.present = {reinterpret_cast<std::uint8_t *>(numbers), 4};
    bare.present = {reinterpret_cast<std::uint8_t *>(numbers + 1), 0};
    jadvolni::table_column beside[] = {unread, column, bare};
    CHECK(jadvolni::parse_table("1,2,3\n", commas(false), 4, beside).rows() == 1 && numbers[0] == 2 && others[0] == 3);
    jadvolni::table_column without_format[] = {column, {}};
    without_format[0].format = {};
    auto answer = jadvolni::parse_table("1,2\n", commas(false), 4, without_format);
    CHECK(answer.status() == status::invalid_mantissa_radix && std::strstr(answer.message(), "an array and no format"));
}

static void headers()
{
    auto header = [](std::string_view text, std::size_t step, std::size_t size, const jadvolni::table &how) {
        std::size_t calls = 0;
        std::vector<char> bytes(size);
        int numbers[4] = {};
        jadvolni::table_blocks blocks(source{text, step, &calls, false}, bytes, how, 4);
        auto first = blocks.header();
        if (!first) return first.message() + (' ' + std::to_string(first.place()));
        std::string shown(*first);
        jadvolni::table_column columns[] = {{}, jadvolni::column_into(numbers)};
        blocks.read_into(columns);
        for (const jadvolni::table_block &block : blocks)
            shown += '|' + std::string(block.message()) + ' ' + std::to_string(block.first_row()) + ' '
                + std::to_string(numbers[0]) + ' ' + std::to_string(block.place());
        return shown;
    };
    auto skips = commas(true), either = commas(false);
    skips.skips_empty_rows = skips.has_returns = 1;
    either.skips_empty_rows = either.allows_returns = 1;
    for (std::size_t step : {1u, 2u, 5u, 99u})
        for (std::size_t size : {16u, 40u}) {
            CHECK(header("a,b\nx,7\n", step, size, commas(false)) == "a,b\n|no fault 0 7 8");
            CHECK(header("\xEF\xBB\xBF\"a\n\"\"\",b\nx,7\n", step, size, commas(true)) == "\"a\n\"\"\",b\n|no fault 0 7 16");
            CHECK(header("\r\n\r\na,b\r\nx,7\r\n", step, size, skips) == "a,b\r\n|no fault 0 7 14");
            CHECK(header("\r\n\na,b\r\nx,7\n", step, size, either) == "a,b\r\n|no fault 0 7 12");
            CHECK(header("a,b", step, size, commas(false)) == "a,b");
            CHECK(header("", step, size, commas(false)).empty() && header("\xEF\xBB\xBF", step, size, skips).empty());
        }
    CHECK(header("aaaaaaaaaaaaaaaaaaaa,b\nx,7\n", 1, 9, commas(false)) == "a row has no room 0");
    CHECK(header("\n\na,\"aaaaaaaaaaaaaaaaaa,b\nx,7\n", 1, 9, skips) == "a row has no room: a quote isn't closed 4");
    // Where reading fails, the header is asked for again.
    std::size_t calls = 0, failures = 0;
    char bytes[9];
    jadvolni::table_blocks failing(source{"\xEF\xBB\xBF" "a,b\nx,7\n", 1, &calls, true}, bytes, commas(false), 4);
    auto first = failing.header();
    for (; !first; ++failures) {
        CHECK(std::strcmp(first.message(), "reading has failed") == 0);
        first = failing.header();
    }
    CHECK(*first == "a,b\n" && first.place() == 3 && failures == 7 && std::strcmp(first.message(), "no fault") == 0);
}

// ---- random tables, in blocks and whole

struct moody {
    std::string_view text;
    std::mt19937 *random;
    std::ptrdiff_t operator()(char *to, std::size_t room)
    {
        if ((*random)() % 4 == 0) return -1;
        auto size = text.copy(to, std::min<std::size_t>(1 + (*random)() % 7, room));
        text.remove_prefix(size);
        return std::ptrdiff_t(size);
    }
};

static jadvolni::table random_table(unsigned flags, const std::size_t *widths)
{
    auto how = commas((flags & 2) != 0);
    how.has_returns = flags & 1;
    how.allows_blanks = (flags & 4) != 0;
    how.skips_empty_rows = (flags & 8) != 0;
    if (flags < 48) return how;
    how.widths = widths;
    how.width_count = 2;
    how.is_records = (flags & 16) != 0;
    return how;
}

// The numbers of the first of two columns, and what ended them, but for reading that failed.
static std::vector<int> in_blocks(moody read, std::size_t size, const jadvolni::table &how, jadvolni::table_block &end)
{
    std::vector<char> bytes(size);
    std::vector<int> all;
    int numbers[2] = {};
    jadvolni::table_column columns[] = {jadvolni::column_into(numbers), {}};
    jadvolni::table_blocks blocks(read, bytes, how, 2, columns);
    for (bool has_failed = true; has_failed;) {
        has_failed = false;
        for (const jadvolni::table_block &block : blocks) {
            all.insert(all.end(), numbers, numbers + block.rows());
            has_failed = !block && std::strcmp(block.message(), "reading has failed") == 0;
            if (!has_failed) end = block;
        }
    }
    return all;
}

static void random_tables()
{
    const char *const pieces[] = {"1", "7", "300", "x", ",", ",", ",", "\n", "\n", "\"", "\"", "\"\"", "\r\n", " "};
    std::mt19937 random(1);
    std::size_t wholes = 0, wrong_cells = 0, no_rooms = 0;
    for (int time = 0; time < 30000; ++time) {
        std::string text;
        for (auto count = random() % 20; count > 0; --count) text += pieces[random() % std::size(pieces)];
        const std::size_t size = 1 + random() % 24, widths[] = {1 + random() % 3, random() % 3};
        auto how = random_table(random() % 64, widths);
        std::vector<int> numbers(32, 9);
        jadvolni::table_column columns[] = {jadvolni::column_into(numbers), {}};
        auto whole = jadvolni::parse_table(text, how, 32, columns);
        jadvolni::table_block end(jadvolni::table_result({}), 0, 0, nullptr);
        auto rows = in_blocks({text, &random}, size, how, end);
        bool is_right = std::equal(rows.begin(), rows.end(), numbers.begin());
        if (!end && end.status() == status::ok) {
            ++no_rooms;
            is_right &= end.place() < text.size() && size <= text.size();
        } else if (!whole) {
            ++wrong_cells;
            is_right &= !end && end.status() == whole.status() && end.place() == whole.place()
                && end.column() == whole.column() && rows.size() == whole.rows();
        } else {
            ++wholes;
            is_right &= rows.size() == whole.rows();
        }
        CHECK(is_right);
    }
    CHECK(wholes > 300 && wrong_cells > 300 && no_rooms > 300);
}

int main()
{
    byte_by_byte();
    at_once();
    moved();
    open_quotes();
    refused_columns();
    headers();
    random_tables();
    return checked();
}
