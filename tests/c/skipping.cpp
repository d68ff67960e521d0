// Bad rows in C++: where a row is, and tables whose bad rows are skipped, whole and in blocks.
#include "jadvolni_faults.hpp"
#include "check.h"
#include "tables.hpp"

#include <algorithm>
#include <array>
#include <random>
#include <string>
#include <vector>

using jadvolni::bad_row, jadvolni::status;

static void whole()
{
    std::vector<long> cents(3, 77);
    unsigned short days[3] = {77, 77, 77};
    jadvolni::table ledger{};
    ledger.separator = ';';
    ledger.has_returns = 1;
    jadvolni::table_column columns[] = {jadvolni::column_into(days), {}, jadvolni::column_into(cents)};
    const std::string text = "1;rent;-80000\r\n365;x\r\n2;;7\r\n3;;y\r\n";
    std::array<jadvolni::bad_row, 1> bad{};

    auto read = jadvolni::parse_table_skipping(text, ledger, 3, columns, bad);
    CHECK(read && read.rows() == 2 && read.bad_rows() == 2 && read.place() == text.size() && read.column() == 0);
    CHECK(days[0] == 1 && days[1] == 2 && cents[0] == -80000 && cents[1] == 7 && cents[2] == 77);
    CHECK(bad[0].row == 1 && bad[0].column == 2 && bad[0].place == 20 && bad[0].start == 15 && bad[0].stop == 22);
    CHECK(static_cast<status>(bad[0].status) == status::too_few_cells);
    CHECK(jadvolni::row_of(text, ledger, bad[0].row) == "365;x\r\n");
    CHECK(jadvolni::row_of(text, ledger, 4).empty());

    std::vector<jadvolni::bad_row> none;
    read = jadvolni::parse_table_part_skipping("4;;4\r\nx\r\n5;;", false, ledger, 3, columns, none);
    CHECK(read && read.rows() == 1 && read.bad_rows() == 1 && read.place() == 9 && days[0] == 4);
    read = jadvolni::parse_table_skipping(text, ledger, 4, columns, bad);
    CHECK(!read && read.status() == status::invalid_table && read.column() == 0 && read.rows() == 0);
    CHECK(std::strstr(read.message(), "fewer rows") && read.moved(7).place() == 0 && read.moved(7).bad_rows() == 0);
    jadvolni::table_column twice[] = {columns[0], {}, columns[0]};
    read = jadvolni::parse_table_skipping(text, ledger, 3, twice, bad);
    CHECK(read.status() == status::invalid_table && read.column() == 2 && std::strstr(read.message(), "overlaps"));
    ledger.is_records = 1;
    CHECK(jadvolni::row_of(text, ledger, 0).empty());
}

// ---- in blocks

static jadvolni::table with_flags(unsigned flags)
{
    auto how = commas((flags & 2) != 0);
    how.has_returns = flags & 1;
    how.allows_blanks = (flags & 4) != 0;
    how.skips_empty_rows = (flags & 8) != 0;
    return how;
}

// The numbers of the first of two columns, the bad rows, what is said of them, and what ends it.
struct outcome {
    std::vector<int> rows;
    std::vector<bad_row> bad;
    std::vector<std::string> faults;
    std::size_t bad_rows = 0;
    std::string end;
};

// The same row: but where it stops, since the empty rows behind it may come with a later block.
static bool operator==(const bad_row &one, const bad_row &other)
{
    return one.status == other.status && one.row == other.row && one.column == other.column
        && one.place == other.place && one.start == other.start;
}

static outcome of_whole(std::string_view text, const jadvolni::table &how)
{
    int numbers[64];
    std::array<bad_row, 64> bad{};
    jadvolni::table_column columns[] = {jadvolni::column_into(numbers), {}};
    auto read = jadvolni::parse_table_skipping(text, how, 64, columns, bad);
    outcome all{{numbers, numbers + read.rows()}, {bad.data(), bad.data() + read.bad_rows()}, {}, read.bad_rows(), ""};
    for (const auto &row : all.bad) all.faults.push_back(jadvolni::table_fault(row, text, how).what());
    return all;
}

// Hands out a fixed number of bytes at once, and fails now and then.
struct source {
    std::string_view text;
    std::size_t step;
    std::mt19937 *random;
    std::ptrdiff_t operator()(char *to, std::size_t room)
    {
        if (random && (*random)() % 4 == 0) return -1;
        auto size = text.copy(to, std::min(step, room));
        text.remove_prefix(size);
        return std::ptrdiff_t(size);
    }
};

static outcome in_blocks(source read, std::size_t size, const jadvolni::table &how, std::size_t capacity, std::size_t room)
{
    std::vector<char> bytes(size);
    std::vector<int> numbers(capacity);
    std::vector<bad_row> bad(room);
    jadvolni::table_column columns[] = {jadvolni::column_into(numbers), {}};
    jadvolni::table_blocks blocks(read, bytes, how, capacity, columns);
    blocks.skip_bad_rows(bad);
    outcome all;
    for (bool has_failed = true; has_failed;) {
        has_failed = false;
        for (const jadvolni::table_block &block : blocks) {
            CHECK(block.first_row() == all.rows.size() && (!block || block.rows() + block.bad_rows() > 0));
            all.rows.insert(all.rows.end(), numbers.begin(), numbers.begin() + std::ptrdiff_t(block.rows()));
            all.bad_rows += block.bad_rows();
            for (std::size_t k = 0; k < std::min(room, block.bad_rows()); ++k) {
                all.bad.push_back(bad[k]);
                all.faults.push_back(block.fault(bad[k]).what());
            }
            CHECK(all.bad_rows == blocks.bad_rows());
            has_failed = !block && !std::strcmp(block.message(), "reading has failed");
            if (!block && !has_failed) all.end = block.fault().what();
        }
    }
    return all;
}

static void hostile_texts()
{
    using namespace std::literals;
    for (std::string_view text : {""sv, "x"sv, "1,a\n22,b\n"sv, "x,a\n22,b\n\nz,c\n3,d"sv, "x\ny\nz\n"sv, "\n\n\n"sv,
                                  "1,a\r\n\0,b\n22\n3,c,d\n4,e"sv, "99999999999,\n-x,\n1,\n"sv}) {
        const auto whole = of_whole(text, commas());
        for (std::size_t size = 14; size < 30; ++size)
            for (std::size_t step : {1u, 2u, 7u, 99u})
                for (std::size_t room : {0u, 1u, 64u}) {
                    const auto read = in_blocks({text, step, nullptr}, size, commas(), 2, room);
                    CHECK(read.rows == whole.rows && read.bad_rows == whole.bad_rows && read.end.empty());
                    CHECK(room != 64 || (read.bad == whole.bad && read.faults == whole.faults));
                    CHECK(room || read.bad.empty());
                }
    }
}

static void troubles()
{
    auto read = in_blocks({"x\n1,a\n2,bbbbbbbbbb\n", 1, nullptr}, 8, commas(), 4, 4);
    CHECK(read.rows == std::vector<int>{1} && read.bad_rows == 1 && read.end == "line 3: a row has no room");
    read = in_blocks({"x\n1,a\n2,\"\nx\nx\nx\nx\n", 3, nullptr}, 8, with_flags(2), 4, 4);
    CHECK(read.rows == std::vector<int>{1} && read.bad_rows == 1);
    CHECK(read.end == "line 3: a row has no room: a quote isn't closed");
    // What ends reading where nothing is skipped is reported as exactly.
    std::string_view text = "1,a\n2,\"\n\"\n3,c\nx,d\n";
    for (std::size_t step : {1u, 5u, 99u}) {
        std::vector<char> bytes(9);
        int numbers[2];
        jadvolni::table_column columns[] = {jadvolni::column_into(numbers), {}};
        jadvolni::table_blocks blocks(source{text, step, nullptr}, bytes, with_flags(2), 2, columns);
        std::string said;
        for (const jadvolni::table_block &block : blocks) {
            const auto fault = block.fault();
            if (block) continue;
            said = fault.what();
            CHECK(fault.row() == 3 && fault.line() == 4 && fault.row_start() == 14 && fault.row_stop() == 18);
            CHECK(fault.place() == block.place() && fault.text() == "x" && fault.column() == 0);
        }
        CHECK(said == "line 5, column 1: \"x\": invalid digit at byte 0 of the cell");
    }
    // A bad row that no block has is reported for none.
    const bad_row foreign{JADVOLNI_OVERFLOW, {0}, 7, 8, 9, 10, 11};
    const jadvolni::table_block none(jadvolni::table_result({}), 0, 0, nullptr);
    const auto fault = none.fault(foreign);
    CHECK(none.fault() && !fault && fault.text().empty() && fault.row() == 7);
    const auto moved = jadvolni::behind(foreign, 1, 100);
    CHECK(moved.row == 8 && moved.column == 8 && moved.place == 109 && moved.start == 110 && moved.stop == 111);
}

// Lines are counted over blocks of any size, of short lines and of long ones.
static void far_lines()
{
    std::string text;
    for (std::size_t row = 0; row < 3000; ++row) text += "1," + std::string(row % 300, 'a') + '\n';
    text += "x,\n";
    for (std::size_t size : {301u, 1000u, 4096u, 1u << 20}) {
        const auto read = in_blocks({text, SIZE_MAX, nullptr}, size + 10, commas(), 5000, 4);
        CHECK(read.rows.size() == 3000 && read.bad_rows == 1 && read.bad[0].row == 3000);
        CHECK(read.faults[0] == "line 3001, column 1: \"x\": invalid digit at byte 0 of the cell");
    }
}

static void random_tables()
{
    const char *const pieces[] = {"1", "7", "300", "x", ",", ",", ",", "\n", "\n", "\"", "\"", "\"\"", "\r\n", " "};
    std::mt19937 random(1);
    std::size_t bad_rows = 0, no_rooms = 0;
    for (int time = 0; time < 20000; ++time) {
        std::string text;
        for (auto count = random() % 24; count > 0; --count) text += pieces[random() % std::size(pieces)];
        const auto how = with_flags(random() % 16);
        const auto whole = of_whole(text, how);
        const std::size_t step = 1 + random() % 7, size = 1 + random() % 30;
        const auto read = in_blocks({text, step, &random}, size, how, 2, 64);
        bad_rows += whole.bad_rows;
        no_rooms += !read.end.empty();
        auto is_front = [](const auto &front, const auto &all) {
            return front.size() <= all.size() && std::equal(front.begin(), front.end(), all.begin());
        };
        CHECK(is_front(read.rows, whole.rows) && is_front(read.bad, whole.bad) && is_front(read.faults, whole.faults));
        CHECK(!read.end.empty() || (read.rows == whole.rows && read.bad == whole.bad));
    }
    CHECK(bad_rows > 20000 && no_rooms > 300);
}

int main()
{
    whole();
    hostile_texts();
    troubles();
    far_lines();
    random_tables();
    return checked();
}
