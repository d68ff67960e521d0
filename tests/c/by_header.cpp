// Columns by the names of a header, of a text and in blocks; hostile headers. Numbers within bounds.
#include <algorithm>
#include <array>
#include <charconv>
#include <climits>
#include <cstring>
#include <iterator>
#include <limits>
#include <optional>
#include <string>
#include <vector>

// Old headers define these, behind which only the standard's own can't be included.
#define min(one, other) ((one) < (other) ? (one) : (other))
#define max(one, other) ((one) > (other) ? (one) : (other))
#include "jadvolni_columns.hpp"
#undef min
#undef max
#include "check.h"
#include "tables.hpp"

using jadvolni::columns_by_header, jadvolni::status;

// The names, each with a bar behind it, and the place behind the header; or what is wrong, and where.
static std::string header(std::string_view text, const jadvolni::table &how)
{
    columns_by_header columns(text, how, std::vector<jadvolni::named_column>());
    std::string shown;
    for (const auto &name : columns.names()) shown += name + '|';
    CHECK(!columns || columns.size() == columns.names().size());
    CHECK(columns || columns.size() == 0);
    return shown + columns.message() + ' ' + std::to_string(columns.place());
}

static void names()
{
    auto quoted = commas(true), returns = commas(), skips = commas(), blanks = commas(true);
    returns.has_returns = skips.skips_empty_rows = blanks.allows_blanks = 1;
    CHECK(header("a,b,c\n1,2,3\n", commas()) == "a|b|c| 6");
    CHECK(header("a,b", commas()) == "a|b| 3");
    CHECK(header("\xEF\xBB\xBF" "a,b\n1,2", commas()) == "a|b| 7");
    CHECK(header("\xEF\xBB\xBF\"a\"\n1", quoted) == "a| 7");
    CHECK(header("\"a,\nb\",\"c\"\"d\",\"\"\n1,2,3", quoted) == "a,\nb|c\"d|| 17");
    CHECK(header("\"\"\"\"\"\"\n", quoted) == "\"\"| 7");
    CHECK(header("\"a\",b\n", commas()) == "\"a\"|b| 6");
    CHECK(header("a,b\r\n1,2\r\n", returns) == "a|b| 5");
    CHECK(header("a,b\r\n1,2\r\n", commas()) == "a|b\r| 5");
    CHECK(header(" a\t,\" b \"\n", blanks) == "a|b| 10");
    CHECK(header("  ,\t\n", blanks) == "|| 5");
    CHECK(header("\n\n,\n", skips) == "|| 4");
    skips.has_returns = 1;
    CHECK(header("\r\n\r\na", skips) == "a| 5");
    CHECK(header("\n\r\n\na\r\n1\r\n", skips) == "a| 7");
    skips.has_returns = 0, skips.allows_returns = 1;
    CHECK(header("\r\n\na,b\r\n1,2\n", skips) == "a|b| 8");
    CHECK(header("\n1\n", commas()) == "| 1");
    auto parted = commas(true);
    parted.separator = '"';
    CHECK(header("a\"b\"c\n", parted) == "a|b|c| 6");
    static const std::size_t widths[] = {3, 4};
    auto fixed = commas();
    fixed.widths = widths, fixed.width_count = 2, fixed.allows_blanks = 1;
    CHECK(header("id rent\n", fixed) == "id|rent| 8");
    fixed.is_records = 1;
    CHECK(header("id rent 12", fixed) == "id|rent| 7");
}

static void what_is_no_header()
{
    auto quoted = commas(true), returns = commas(), skips = commas(), records = commas();
    returns.has_returns = skips.skips_empty_rows = records.is_records = 1;
    CHECK(header("", commas()) == "the table has no header 0" && header("\xEF\xBB\xBF", commas()) == "the table has no header 3");
    CHECK(header(std::string_view(), skips) == "the table has no header 0");
    CHECK(header("\n\n\n", skips) == "the table has no header 3");
    CHECK(header("a,\"b\nc\n", quoted) == "the header is no row: misplaced quote 2");
    CHECK(header("a,b\"c\"\n", quoted) == "the header is no row: misplaced quote 3");
    CHECK(header("\xEF\xBB\xBF" "a,b\"\"\n", quoted) == "the header is no row: misplaced quote 6");
    CHECK(header("\"\n", quoted) == "the header is no row: misplaced quote 0");
    CHECK(header("a,b\n", returns) == "the header is no row: missing carriage return 3");
    CHECK(header("a", records) == "the header is no row: a table whose rows are records needs widths 0");
    static const std::size_t widths[] = {2, 1};
    auto fixed = commas();
    fixed.widths = widths, fixed.width_count = 2;
    CHECK(header("ab\n", fixed) == "the header is no row: too few cells 2");
    CHECK(header("abcd\n", fixed) == "the header is no row: too many cells 3");
}

static void wrong_names()
{
    auto fault = [](std::string_view text, std::initializer_list<jadvolni::named_column> wanted) {
        return columns_by_header(text, commas(), wanted).message();
    };
    CHECK(fault("id,cents,id\n", {{"cents", {}}}).empty() && fault("id,cents\n", {}).empty());
    CHECK(fault("id,cents,id\n", {{"id", {}}}) == "more than one column \"id\": the header has \"id\", \"cents\", \"id\"");
    CHECK(fault("id,cents,id\n", {{"cent", {}}}) == "no column \"cent\": the header has \"id\", \"cents\", \"id\"");
    CHECK(fault("id,cents,id\n", {{"cents", {}}, {"cents", {}}}) == "the column \"cents\" is asked for twice");
    CHECK(fault("id\n", {{"", {}}}) == "no column \"\": the header has \"id\"");
    std::string many, long_name(99, 'x'), accents = "x";
    for (int index = 0; index < 1000; ++index) many += std::to_string(index) + ',';
    auto message = fault(many, {{long_name, {}}});
    CHECK(message.find("no column \"" + long_name.substr(0, 40) + "\" ..: the header has \"0\", \"1\"") == 0);
    CHECK(message.find(", \"39\" and 961 more") != message.npos);
    for (int index = 0; index < 40; ++index) accents += "\xC3\xA9";
    CHECK(fault("id\n", {{accents, {}}}).find("no column \"" + accents.substr(0, 41) + "\" ..:") == 0);
    // Names are escaped as cells are. One that has the return of its line has a hint.
    const std::string crlf = "id,c\r\n1,2\r\n", seen = "the header has \"id\", \"c\\r\"";
    const std::string hint = "; allows_returns may have to be set";
    CHECK(fault(crlf, {{"c", {}}}) == "no column \"c\": " + seen + hint);
    CHECK(fault(crlf, {{"d", {}}}) == "no column \"d\": " + seen);
    auto allows = commas();
    allows.allows_returns = 1;
    CHECK(columns_by_header(crlf, allows, {{"c", {}}}).message().empty());
    CHECK(columns_by_header("c\r", allows, {{"c", {}}}).message() == "no column \"c\": the header has \"c\\r\"");
    const std::string hostile(99, '\x01'), tails(99, '\x80');
    std::string shown;
    for (int index = 0; index < 40; ++index) shown += "\\x01";
    CHECK(fault(hostile + "\n", {{"\"\\\t\x7F", {}}})
          == "no column \"\\\"\\\\\\t\\x7f\": the header has \"" + shown + "\" ..");
    CHECK(fault("id\n", {{tails, {}}}).find("no column \"" + tails.substr(0, 43) + "\" ..:") == 0);
}

static void rows()
{
    std::string_view text = "\xEF\xBB\xBF" "day,what,\"cents\n\"\r\n1,\"a\nb\",-80000\r\n2,c,7\r\n3,d,x\r\n";
    auto how = commas(true);
    how.has_returns = 1;
    std::vector<long> cents(4, 9);
    std::array<unsigned char, 4> days{9, 9, 9, 9};
    columns_by_header columns(text, how, {{"cents\n", jadvolni::column_into(cents)}, {"day", jadvolni::column_into(days)}});
    auto read = columns.read(text, 4);
    CHECK(columns && read.status() == status::invalid_digit && read.rows() == 2 && read.column() == 2 && read.place() == 49);
    CHECK(columns.name(read.column()) == "cents\n" && columns.name(3).empty());
    CHECK(cents[0] == -80000 && cents[1] == 7 && cents[2] == 9 && days[1] == 2 && days[2] == 3);
    read = columns.read(text.substr(0, 45), 4);
    CHECK(read && read.rows() == 2 && read.place() == 45 && columns.read("", 4).rows() == 0);
    CHECK(jadvolni::parse_table(text.substr(columns.place(), 23), how, 4, columns).rows() == 2);
    read = columns.read(text, 5);
    CHECK(read.status() == status::invalid_table && read.place() == 0 && std::strstr(read.message(), "fewer rows"));
    // A header that is wrong has no columns, so that a text of rows isn't one of its table.
    columns_by_header wrong(text, how, {{"x", {}}});
    CHECK(!wrong && !wrong.read(text, 4));
}

static void rows_in_blocks()
{
    std::string_view text = "\xEF\xBB\xBFid,\"what\n\",cents\n1,rent,-5\n2,,7\n3,x,8\n";
    for (std::size_t step : {1u, 2u, 99u}) {
        auto left = text;
        auto source = [&](char *to, std::size_t room) {
            auto size = left.copy(to, std::min(step, room));
            left.remove_prefix(size);
            return size;
        };
        char bytes[20];
        int cents[2], sum = 0;
        jadvolni::table_blocks blocks(source, bytes, commas(true), 2);
        auto header = blocks.header();
        columns_by_header columns(*header, commas(true), {{"cents", jadvolni::column_into(cents)}});
        CHECK(header && header.place() == 3 && columns);
        blocks.read_into(columns);
        for (const jadvolni::table_block &block : blocks) {
            CHECK(block);
            for (std::size_t row = 0; row < block.rows(); ++row) sum += cents[row];
        }
        CHECK(sum == 10);
    }
}

// ---- numbers within bounds

template <class T>
static void within(std::string_view text, T min, T max, const char *wanted)
{
    auto read = jadvolni::parse_within(text, min, max);
    auto whole = jadvolni::parse<T>(text);
    CHECK(read.has_value() == (whole.has_value() && *whole >= min && *whole <= max));
    CHECK(!read || (*read == *whole && read.place() == text.size()));
    CHECK(std::string(read.message()) == wanted);
}

template <class T>
static void ends_of_a_type()
{
    auto least = std::numeric_limits<T>::min(), greatest = std::numeric_limits<T>::max();
    auto min = std::to_string(least), max = std::to_string(greatest), all = " is not from " + min + " to " + max;
    within<T>(max, least, greatest, "no fault");
    within<T>(min, least, greatest, "no fault");
    within<T>(max + '0', least, greatest, (max + '0' + all).c_str());
    within<T>("-" + max + '0', least, greatest, ("-" + max + '0' + all).c_str());
    within<T>(max, 0, 5, (max + " is not from 0 to 5").c_str());
    within<T>("7", greatest, least, ("7 is not from " + max + " to " + min).c_str());
}

static void bounds()
{
    within<std::uint16_t>("8080", 1, 65535, "no fault");
    within<std::uint16_t>("70000", 1, 65535, "70000 is not from 1 to 65535");
    within<std::uint16_t>("0", 1, 65535, "0 is not from 1 to 65535");
    within<std::uint16_t>("-1", 1, 65535, "-1 is not from 1 to 65535");
    within<std::uint16_t>("-0", 1, 65535, "invalid digit");
    within<std::uint16_t>("99999x", 1, 65535, "invalid digit");
    within<std::uint16_t>("-x", 1, 65535, "invalid digit");
    within<std::uint16_t>("", 1, 65535, "missing digit");
    within<signed char>("-129", -5, 5, "-129 is not from -5 to 5");
    within<int>(std::string(99, '9'), -5, 5, (std::string(40, '9') + ".. is not from -5 to 5").c_str());
    ends_of_a_type<unsigned char>(), ends_of_a_type<short>(), ends_of_a_type<unsigned>(), ends_of_a_type<long long>();
    ends_of_a_type<signed char>(), ends_of_a_type<unsigned short>(), ends_of_a_type<int>(), ends_of_a_type<unsigned long>();
    CHECK(jadvolni::parse_within<int>("6", 1, 5).status() == status::overflow);
    CHECK(jadvolni::parse_within<int>("0", 1, 5).status() == status::underflow);
    CHECK(jadvolni::parse_within<int>("99999999999", 1, 5).place() == 0);
    auto quoted = jadvolni::parse_within<int>("70'000", 1, 5, jadvolni::formats::cpp14);
    CHECK(std::string(quoted.message()) == "70'000 is not from 1 to 5");
    auto hexadecimal = jadvolni_format_of_radix(16), separated = jadvolni::standard, broken = jadvolni::standard;
    hexadecimal.base_prefix = 'x';
    auto read = jadvolni::parse_within<unsigned>("0x1000000", 0, 0xFFFFFF, hexadecimal);
    CHECK(std::string(read.message()) == "0x1000000 is not from 0 to 16777215");
    separated.nul_is_punctuation = JADVOLNI_NUL_IS_SEPARATOR;
    separated.integer_internal_digit_separator = 1;
    std::string most; // the longest message that there is
    for (std::size_t index = 0; index < 50; ++index) most += std::string("\0", index % 2) + '1';
    most.insert(1, std::string(60, '\0')), separated.integer_consecutive_digit_separator = 1;
    auto longest = jadvolni::parse_within<std::int64_t>(most, INT64_MIN, INT64_MIN, separated);
    CHECK(std::strlen(longest.message()) == 1 + 39 * 4 + 2 + 13 + 20 + 4 + 20);
    broken.mantissa_radix = 1;
    CHECK(jadvolni::parse_within<int>("1", 1, 5, broken).status() == status::invalid_mantissa_radix);
#ifdef __SIZEOF_INT128__
    jadvolni_native_int128 least = -5;
    CHECK(*jadvolni::parse_within<jadvolni_native_int128>("-5", least, 5) == least);
    auto beyond = jadvolni::parse_within<jadvolni_native_uint128>(std::string(40, '9'), 0, 5);
    CHECK(std::string(beyond.message()) == std::string(40, '9') + " is not from 0 to 5");
#endif
}

// ---- amounts within bounds

template <class T>
static void amount(std::string_view text, T min, T max, const jadvolni::fixed &under, const std::string &wanted)
{
    auto read = jadvolni::parse_fixed_within(text, min, max, under);
    auto whole = jadvolni::parse_fixed<T>(text, under);
    CHECK(read.has_value() == (whole.has_value() && *whole >= min && *whole <= max));
    CHECK(!read || (*read == *whole && read.place() == text.size()));
    CHECK(std::string(read.message()) == wanted);
}

static void bounds_of_amounts()
{
    jadvolni::fixed cents{}, euros{}, none{}, strange{}, many{}, broken{};
    cents.integer = euros.integer = none.integer = strange.integer = many.integer = broken.integer = jadvolni::standard;
    cents.places = euros.places = strange.places = 2, many.places = 38, broken.places = 39;
    euros.point = ',', euros.integer.digit_separator = '.', euros.integer.integer_internal_digit_separator = 1;
    strange.point = 0xB7;
    amount<std::int64_t>("12.50", 0, 9999, cents, "no fault");
    amount<std::int64_t>("-1.00", 0, 9999, cents, "-1.00 is not from 0.00 to 99.99");
    amount<std::uint16_t>("-1.00", 5, 9999, cents, "-1.00 is not from 0.05 to 99.99");
    amount<std::uint8_t>("1234.56", 0, 255, cents, "1234.56 is not from 0.00 to 2.55");
    amount<std::int8_t>("-1.29", -128, 127, cents, "-1.29 is not from -1.28 to 1.27");
    amount<int>("100.00", -5, 9999, cents, "100.00 is not from -0.05 to 99.99");
    amount<int>("100.0x", -5, 9999, cents, "invalid digit");
    amount<std::uint8_t>("99999.9", 0, 5, cents, "missing digit");
    amount<std::uint8_t>("-0.00", 0, 5, cents, "invalid digit");
    amount<int>("1.234,50", -5, 9999, euros, "1.234,50 is not from -0,05 to 99,99");
    amount<int>("7", 0, 5, none, "7 is not from 0 to 5");
    amount<int>("9\xB7" "99", 0, 5, strange, "9\\xb799 is not from 0\\xb700 to 0\\xb705");
    amount<int>("1", 0, 5, broken, jadvolni_status_text(JADVOLNI_INVALID_PLACES));
    CHECK(jadvolni::parse_fixed_within<int>("6.00", 1, 5, cents).status() == status::overflow);
    CHECK(jadvolni::parse_fixed_within<int>("0.00", 1, 5, cents).status() == status::underflow);
#ifdef __SIZEOF_INT128__
    jadvolni_native_int128 greatest = (~jadvolni_native_uint128{} >> 1), least = -greatest - 1;
    auto past = jadvolni::parse_fixed_within("9." + std::string(38, '9'), least, greatest, many);
    std::string end = "70141183460469231731687303715884105728", last = end;
    last.back() = '7';
    CHECK(past.message() == "9." + std::string(38, '9') + " is not from -1." + end + " to 1." + last);
#endif
}

int main()
{
    names();
    what_is_no_header();
    wrong_names();
    rows();
    rows_in_blocks();
    bounds();
    bounds_of_amounts();
    return checked();
}
