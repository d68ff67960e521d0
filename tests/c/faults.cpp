// What is reported of a fault of a table, in C++: of each kind, with hostile cells, by names, and in words.
#include "jadvolni_columns.hpp"
#include "check.h"
#include "tables.hpp"

#include <array>
#include <cstring>
#include <string>
#include <vector>

using jadvolni::status, jadvolni::table_fault;

// The fault of a text whose columns are a number, a cell that isn't read, and a number.
static table_fault fault_of(std::string_view text, const jadvolni::table &how, std::size_t capacity = 9)
{
    unsigned char ids[9];
    long cents[9];
    jadvolni::table_column columns[] = {jadvolni::column_into(ids), {}, jadvolni::column_into(cents)};
    char *bytes = static_cast<char *>(exactly(text.data(), text.size()));
    std::string_view copy(bytes, text.size());
    table_fault fault(jadvolni::parse_table(copy, how, capacity, columns), copy, how);
    std::free(bytes); // (it outlives the text)
    return fault;
}

static bool says(std::string_view text, const jadvolni::table &how, const std::string &wanted)
{
    const auto fault = fault_of(text, how);
    if (fault.what() == wanted) return true;
    std::fprintf(stderr, "%s\n", fault.what());
    return false;
}

static void each_kind()
{
    auto returns = commas(), skips = commas();
    returns.has_returns = 1;
    skips.skips_empty_rows = skips.allows_blanks = 1;
    CHECK(says("1,a,5\n", commas(), "no fault") && says("", commas(), "no fault"));
    CHECK(says("1,a,5x", commas(), "line 1, column 3: \"5x\": invalid digit at byte 1 of the cell"));
    CHECK(says("1,a,\n", commas(), "line 1, column 3: \"\": missing digit at byte 0 of the cell"));
    CHECK(says("1,a,2\n256,", commas(), "line 2, column 1: \"256\": overflow at byte 2 of the cell"));
    CHECK(says("1,a\n", commas(), "line 1: too few cells, none for column 3"));
    CHECK(says("1,a,2,b,c\n", commas(), "line 1, column 4: \"b\": too many cells"));
    CHECK(says("1,a,2\r\n1,a,3\n", returns, "line 2: missing carriage return"));
    CHECK(says("1,\"a\n\",2\n3,b\"c\",4", commas(true),
               "line 3, column 2: \"b\\\"c\\\"\": misplaced quote at byte 1 of the cell"));
    CHECK(says("1,a,2\n3,\"b,4\n5,c,6\n", commas(true),
               "line 2, column 2: \"\\\"b,4\\n5,c,6\\n\": misplaced quote at byte 0 of the cell"));
    CHECK(says("1,a,\"5x\"\n", commas(true), "line 1, column 3: \"\\\"5x\\\"\": invalid digit at byte 2 of the cell"));
    CHECK(says("1,a,5\n\n\n 3x ,b,7\n", skips, "line 4, column 1: \" 3x \": invalid digit at byte 2 of the cell"));
    const auto fault = fault_of("1,\"a\nb\",7\n2,c,12x\n3,d,8\n", commas(true));
    CHECK(!fault && fault.row() == 1 && fault.line() == 2 && fault.column() == 2 && fault.place() == 16);
    CHECK(fault.row_start() == 10 && fault.row_stop() == 18 && fault.text() == "12x" && fault.name().empty());
    CHECK(fault.status() == status::invalid_digit && !std::strcmp(fault.message(), "invalid digit"));
    const auto whole = fault_of("1,a,2\n", commas());
    CHECK(whole && whole.status() == status::ok && whole.text().empty());
    const auto few = fault_of("1,a,2\n3,b\n\n\n", skips);
    CHECK(few.text().empty() && few.row_start() == 6 && few.row_stop() == 10 && few.place() == 9);
    // Rows and lines behind others.
    const auto behind = fault.behind(10, 20, 300);
    CHECK(behind.row() == 11 && behind.line() == 22 && behind.place() == 316 && behind.row_start() == 310);
    CHECK(behind.row_stop() == 318 && says("1,a,2\n", commas(), whole.behind(1, 1, 1).what()));
    CHECK(!std::strcmp(behind.what(), "line 23, column 3: \"12x\": invalid digit at byte 2 of the cell"));
}

static void hostile_cells()
{
    CHECK(says({"1,a,7\n1,a,5\0\n", 13}, commas(),
               "line 2, column 3: \"5\\x00\": invalid digit at byte 1 of the cell"));
    CHECK(says("1,a,\x1b\t\\'\x7f\n", commas(),
               "line 1, column 3: \"\\x1b\\t\\\\'\\x7f\": invalid digit at byte 0 of the cell"));
    const std::string zeros(40, '0');
    CHECK(says("1,a," + zeros + "0000x", commas(),
               "line 1, column 3: \"" + zeros + "\"..: invalid digit at byte 44 of the cell"));
    CHECK(says("1,a," + zeros, commas(), "no fault"));
    CHECK(says("1,a,\xC3\xA9\n", commas(), "line 1, column 3: \"\xC3\xA9\": invalid digit at byte 0 of the cell"));
    // A message cuts a long cell between two characters.
    std::string accents = "7", most;
    for (int index = 0; index < 30; ++index) accents += "\xC3\xA9";
    most = accents.substr(0, 39);
    const auto fault = fault_of("1,a," + accents + "\n", commas());
    CHECK(fault.what() == "line 1, column 3: \"" + most + "\"..: invalid digit at byte 1 of the cell");
    CHECK(fault.text() == std::string_view(accents).substr(0, 40));
    const std::string stray(50, '\x80');
    CHECK(std::strlen(fault_of("1,a," + stray, commas()).what()) < 120);
}

// The words name the option that skips empty rows.
static void empty_rows()
{
    const std::string hint = "; the row is empty: skips_empty_rows may have to be set";
    auto lines = commas(), returns = commas(), skips = commas();
    returns.has_returns = skips.skips_empty_rows = 1;
    CHECK(says("1,a,2\n\n", lines, "line 2, column 1: \"\": missing digit at byte 0 of the cell" + hint));
    CHECK(says("1,a,2\r\n\n", returns, "line 2, column 1: \"\": missing digit at byte 0 of the cell" + hint));
    CHECK(says("1,a,2\r\n\r\n3,b,4", returns, "line 2, column 1: \"\": missing digit at byte 0 of the cell" + hint));
    CHECK(says("1,a,2\n\n", skips, "no fault"));
    CHECK(says("\r\n", lines, "line 1, column 1: \"\\r\": invalid digit at byte 0 of the cell"));
    CHECK(says("\r", returns, "line 1, column 1: \"\\r\": invalid digit at byte 0 of the cell"));
    static const std::size_t each[] = {2, 1, 3};
    lines.widths = each, lines.width_count = 3;
    CHECK(says("12a345\n\n", lines, "line 2: too few cells, none for column 1" + hint));
    jadvolni::table_column unread[2] = {};
    const std::string_view text = "a,b\n\n";
    const table_fault few(jadvolni::parse_table(text, commas(), 9, unread), text, commas());
    CHECK(few.what() == "line 2: too few cells, none for column 2" + hint && few.text().empty());
    CHECK(few.named("b").what() == "line 2: too few cells, none for \"b\"" + hint);
}

static void widths()
{
    static const std::size_t each[] = {2, 1, 3};
    auto lines = commas();
    lines.widths = each, lines.width_count = 3;
    CHECK(says("12a345\n1xb678\n", lines, "line 2, column 1: \"1x\": invalid digit at byte 1 of the cell"));
    const std::string few = ": too few cells, none for column ", trimmed = ": pad it if its last blanks were trimmed";
    CHECK(says("12a3\n", lines, "line 1" + few + "3; the row has 4 of the 6 bytes of its widths" + trimmed));
    CHECK(says("12a345\n1", lines, "line 2" + few + "1; the row has 1 of the 6 bytes of its widths" + trimmed));
    CHECK(says("12a345bc\n", lines, "line 1, column 4: \"bc\": too many cells"));
    auto records = lines;
    records.is_records = 1;
    CHECK(says("12\n34512a3x5", records, "row 2, column 3: \"3x5\": invalid digit at byte 1 of the cell"));
    CHECK(says("12a3451", records, "row 2" + few + "1; the row has 1 of the 6 bytes of its widths"));
    records.skips_empty_rows = 1;
    const std::string only = "; the row is only a line end, and records have none";
    CHECK(says("12a345\n", records, "row 2" + few + "1" + only));
    CHECK(says("12a345\r\n", records,
               "row 2, column 1: \"\\r\\n\": invalid digit at byte 0 of the cell" + only));
    static const std::size_t of_one[] = {0, 1, 0};
    auto narrow = records;
    narrow.widths = of_one;
    CHECK(says("\n", narrow, "row 1, column 1: \"\": missing digit at byte 0 of the cell"));
    for (const char *text : {"12a345\r\n12a \r\n", "12a345\r\n12a "}) {
        lines.has_returns = 1;
        CHECK(says(text, lines, "line 2" + few + "3; the row has 4 of the 6 bytes of its widths" + trimmed));
    }
    lines.has_quotes = 1;
    CHECK(says("12a\"\n", lines, "line 2" + few + "3; the row has 5 of the 6 bytes of its widths" + trimmed));
    const auto fault = fault_of("12\n34512a3x5", records);
    CHECK(fault.line() == 1 && fault.row_start() == 6 && fault.row_stop() == 12);
}

// What has no place: no line and no row is reported.
static void refused()
{
    auto records = commas();
    records.is_records = 1;
    CHECK(says("x", records, "a table whose rows are records needs widths"));
    const auto room = fault_of("1,a,2\n", commas(), 10);
    CHECK(!std::strcmp(room.what(), "column 1: the column's array has room for fewer rows than are asked for"));
    CHECK(!room && room.line() == 0 && room.row_stop() == 0 && !std::strcmp(room.behind(1, 1, 1).what(), room.what()));
    int numbers[2];
    auto of_37 = jadvolni::standard;
    of_37.mantissa_radix = 37;
    jadvolni::table_column columns[] = {{}, jadvolni::column_into(numbers, of_37)};
    const auto read = jadvolni::parse_table("a,b\n", commas(), 2, columns);
    const auto fault = table_fault(read, "a,b\n", commas());
    CHECK(!std::strcmp(fault.what(), "column 2: the radix has to be 2 to 36"));
    CHECK(!std::strcmp(fault.named("b").what(), "\"b\": the radix has to be 2 to 36"));
}

// A fault is reported of the text that is handed over, whatever that is.
static void another_text()
{
    const std::size_t most = SIZE_MAX;
    for (std::string_view text : {"", "1\n", "\n\n\n", "1,2\n3,4\nx"})
        for (std::size_t row : {std::size_t(0), std::size_t(5), most})
            for (std::size_t place : {std::size_t(0), std::size_t(3), most})
                for (std::size_t column : {std::size_t(0), most}) {
                    const jadvolni_table_result answer{JADVOLNI_INVALID_DIGIT, column, row, place};
                    CHECK(!std::strncmp(table_fault(jadvolni::table_result(answer), text, commas()).what(), "line ", 5));
                    const jadvolni::bad_row bad{JADVOLNI_OVERFLOW, {0}, row, column, place, place, row};
                    CHECK(!std::strncmp(table_fault(bad, text, commas()).what(), "line ", 5));
                }
}

static void names()
{
    std::string_view text = "\xEF\xBB\xBF" "day,\"what\nfor\",cents\n1,\"a\nb\",-80000\n2,c,7x\n3\n4,d,9\n";
    std::vector<long> cents(4, 9);
    jadvolni::columns_by_header columns(text, commas(true), {{"cents", jadvolni::column_into(cents)}});
    const auto read = columns.read(text, 4);
    const auto fault = columns.fault(read, text);
    CHECK(!std::strcmp(fault.what(), "line 5, \"cents\": \"7x\": invalid digit at byte 1 of the cell"));
    CHECK(fault.row() == 1 && fault.line() == 4 && fault.name() == "cents");
    CHECK(text.substr(fault.row_start(), fault.row_stop() - fault.row_start()) == "2,c,7x\n");
    std::array<jadvolni::bad_row, 1> bad{};
    const auto skipped = columns.read_skipping(text, 4, bad);
    CHECK(skipped && skipped.rows() == 2 && skipped.bad_rows() == 2 && skipped.place() == text.size());
    CHECK(cents[0] == -80000 && cents[1] == 9 && bad[0].row == 1 && bad[0].start == fault.row_start());
    CHECK(!std::strcmp(columns.fault(bad[0], text).what(), fault.what()));
    CHECK(columns.read_skipping("", 4, bad).rows() == 0);
    const auto narrow = columns.read_skipping(text, 5, bad);
    CHECK(narrow.status() == status::invalid_table && std::strstr(narrow.message(), "fewer rows") && narrow.place() == 0);
    CHECK(!std::strcmp(columns.fault(narrow, text).what(),
                       "\"cents\": the column's array has room for fewer rows than are asked for"));
    // Names that are long, or that would be read as words of the message.
    const std::string name(50, 'n'), few = "1,2\n";
    const auto one = table_fault(jadvolni::table_result({JADVOLNI_TOO_FEW_CELLS, 1, 0, 3}), few, commas());
    CHECK(one.named(name).what() == "line 1: too few cells, none for \"" + std::string(40, 'n') + "\"..");
    CHECK(!std::strcmp(one.named("a\"\n").what(), "line 1: too few cells, none for \"a\\\"\\n\""));
    CHECK(!std::strcmp(one.named("").what(), one.what()));
}

int main()
{
    each_kind();
    hostile_cells();
    empty_rows();
    widths();
    refused();
    another_text();
    names();
    return checked();
}
