// The header for C++: each status, each kind of call, and from_chars beside that of the standard library.
#include "jadvolni.hpp"
#include "check.h"

#include <algorithm>
#include <array>
#include <climits>
#include <cstdio>
#include <cstring>
#include <random>
#include <string>
#include <vector>

using jadvolni::parse, jadvolni::parse_front, jadvolni::parse_partial, jadvolni::status;

template <class T>
static bool is_fault(const jadvolni::result<T> &read, status wanted, std::size_t place)
{
    return !read && read.status() == wanted && read.place() == place && !read.optional()
        && read.value_or(5) == 5 && std::strcmp(read.name(), jadvolni::name(wanted)) == 0
        && std::strcmp(read.message(), jadvolni::message(wanted)) == 0;
}

static void faults_of_texts()
{
    auto with_sign = jadvolni::standard;
    with_sign.required_mantissa_sign = 1;
    CHECK(is_fault(parse<std::uint64_t>("18446744073709551616"), status::overflow, 19));
    CHECK(is_fault(parse<signed char>("-129"), status::underflow, 3));
    CHECK(is_fault(parse<int>("12x"), status::invalid_digit, 2));
    CHECK(is_fault(parse<int>(std::string_view()), status::empty, 0)); // its data() is nullptr
    CHECK(is_fault(parse<int>("12", with_sign), status::missing_sign, 0));
    CHECK(is_fault(parse<int>("+1", jadvolni::formats::json), status::invalid_positive_sign, 0));
    CHECK(is_fault(parse<int>("-01", jadvolni::formats::json), status::invalid_leading_zeros, 1));
    CHECK(is_fault(parse_partial<short>("-32769,"), status::underflow, 5));
}

static void faults_of_formats()
{
    auto broken = jadvolni::standard;
    auto says = [&broken](status wanted) {
        return jadvolni::format_error(broken) == wanted && is_fault(parse<int>("1", broken), wanted, 0)
            && is_fault(parse_partial<int>("1", broken), wanted, 0);
    };
    CHECK(jadvolni::format_error(broken) == status::ok);
    broken.base_prefix = 'x';
    broken.literal_prefixes = 1;
    CHECK(says(status::invalid_literal_prefixes));
    broken.base_suffix = 'X';
    CHECK(says(status::invalid_punctuation));
    broken.base_suffix = '-';
    CHECK(says(status::invalid_base_suffix));
    broken.base_prefix = '0';
    CHECK(says(status::invalid_base_prefix));
    broken.digit_separator = 200;
    CHECK(says(status::invalid_digit_separator));
    broken.mantissa_radix = 0;
    CHECK(says(status::invalid_mantissa_radix));
    broken.reserved[0] = 1;
    CHECK(says(status::unknown_field));
}

// The names and texts are those of C, which are compared with the list of all languages.
static void texts_of_statuses()
{
    for (std::uint32_t k = 0; k <= JADVOLNI_UNKNOWN_FIELD + 1; ++k) {
        CHECK(std::strcmp(jadvolni::name(status(k)), jadvolni_status_name(k)) == 0);
        CHECK(std::strcmp(jadvolni::message(status(k)), jadvolni_status_text(k)) == 0);
    }
}

static void numbers()
{
    const auto &kept = *parse<int>("42"); // a copy, since what was read has ended
    static_assert(!std::is_reference_v<decltype(*parse<int>("42"))>);
    CHECK(kept == 42);
    CHECK(parse<std::uint16_t>("8080") && *parse<std::uint16_t>("8080") == 8080);
    CHECK(*parse<long>("-12") == -12 && *parse<long long>("-12") == -12 && *parse<unsigned long>("12") == 12);
    CHECK(*parse<char>("65") == 'A' && *parse<unsigned char>("255") == 255 && *parse<std::size_t>("7") == 7);
    CHECK(parse<int>("7").optional() == 7 && parse<int>("7").value_or(5) == 7 && parse<int>("7").has_value());
    auto front = parse_front<int>("-12, 3");
    CHECK(*front == -12 && front.place() == 3 && *parse_partial<int>("-12, 3") == -12);
    CHECK(is_fault(parse_front<int>("x"), status::empty, 0) && *parse_partial<int>("x") == 0);
    CHECK(is_fault(parse_front<int>("+a"), status::empty, 1) && is_fault(parse_front<int>("-x"), status::empty, 1));
    CHECK(is_fault(parse_front<int>("[- 5]", jadvolni::formats::json), status::empty, 0));
    CHECK(is_fault(parse_front<int>("- 5]", jadvolni::formats::json), status::empty, 1));
    CHECK(is_fault(parse_front<int>("0xg", jadvolni::literal), status::empty, 2));
    CHECK(*parse<long>("0b1_01", jadvolni::literal) == 5);
    CHECK(parse_partial<long>("0x_1", jadvolni::literal).place() == 2);
#ifdef __SIZEOF_INT128__
    CHECK(*parse<jadvolni_native_int128>("-170141183460469231731687303715884105728") < 0);
    CHECK(*parse<jadvolni_native_uint128>("18446744073709551616") == jadvolni_native_uint128(1) << 64);
#endif
}

// Amounts of money, and where a place is.
static void fixed_point()
{
    using jadvolni::parse_fixed, jadvolni::parse_fixed_front;
    jadvolni::fixed cents{};
    cents.places = 2;
    cents.takes_fewer = 1;
    CHECK(*parse_fixed<int>("12.5", cents) == 1250 && *parse_fixed<long long>("-0.05", cents) == -5);
    CHECK(is_fault(parse_fixed<int>("12.505", cents), status::invalid_digit, 5));
    CHECK(is_fault(parse_fixed<std::uint8_t>("3", cents), status::overflow, 1));
    auto front = parse_fixed_front<int>("12. And", cents);
    CHECK(*front == 1200 && front.place() == 2);
    cents.point = '5';
    CHECK(is_fault(parse_fixed<int>("12", cents), status::invalid_point, 0));
    auto at = jadvolni::line_column("12\n34\n5x", 7);
    CHECK(at.line == 2 && at.column == 1);
}

static void fronts_under_a_format()
{
    const std::string text = "1_000_000;";
    const char *first = text.data(), *last = first + text.size();
    int value = 77;
    auto read = jadvolni::from_chars(first, last, value, jadvolni::literal);
    CHECK(read.ec == std::errc() && read.ptr == first + 9 && value == 1000000);
    std::uint8_t narrow = 77;
    read = jadvolni::from_chars(first, last, narrow, jadvolni::literal);
    CHECK(read.ec == std::errc::result_out_of_range && read.ptr == first + 4 && narrow == 77);
    auto broken = jadvolni::literal;
    broken.mantissa_radix = 2;
    read = jadvolni::from_chars(first, last, value, broken);
    CHECK(read.ec == std::errc::invalid_argument && read.ptr == first && value == 1000000);
}

// Whether from_chars finds no number, by its answer and by the value that it leaves.
template <class... Under>
static bool has_no_number(std::string_view text, const Under &...under)
{
    int value = 77;
    auto read = jadvolni::from_chars(text.data(), text.data() + text.size(), value, under...);
    return read.ec == std::errc::invalid_argument && read.ptr == text.data() && value == 77;
}

// A front without a digit is no number, also where the format requires none, and a prefix is no digit.
static void fronts_without_a_digit()
{
    auto optional = jadvolni::standard, prefixed = jadvolni::formats::json, suffixed = jadvolni::formats::json;
    optional.required_mantissa_digits = 0;
    prefixed.base_prefix = 'x';
    suffixed.base_suffix = 'h';
    CHECK(has_no_number("abc", jadvolni::formats::json) && has_no_number("-x", jadvolni::formats::json));
    CHECK(has_no_number("abc", jadvolni::literal) && has_no_number("0xg", jadvolni::literal));
    CHECK(has_no_number("", optional) && has_no_number("-", optional) && has_no_number({}, optional));
    CHECK(has_no_number("0xg", prefixed) && has_no_number("h", suffixed));
    for (const char *text : {"0", "-0h", "00 ", "0_0"}) {
        int value = 77;
        auto read = jadvolni::from_chars(text, text + std::strlen(text), value, optional);
        CHECK(read.ec == std::errc() && read.ptr > text && value == 0);
    }
}

// A base that isn't 2 to 36 reads nothing: 272 isn't 16.
static void wrong_bases()
{
    for (int base : {INT_MIN, -246, -1, 0, 1, 37, 255, 256, 266, 272, INT_MAX}) {
        CHECK(has_no_number("10", base) && has_no_number("-1", base) && has_no_number("", base));
        CHECK(has_no_number("99999999999999999999", base));
    }
}

template <class T>
static void beside_std(const std::string &text, int base)
{
    T ours = 77, theirs = 77;
    const char *first = text.data(), *last = first + text.size();
    auto a = jadvolni::from_chars(first, last, ours, base);
    auto b = std::from_chars(first, last, theirs, base);
    ++checks;
    if (a.ptr != b.ptr || a.ec != b.ec || ours != theirs) {
        ++wrong;
        std::fprintf(stderr, "'%s' in base %d: ours stops at %td with %d, theirs at %td with %d\n", text.c_str(), base,
                     a.ptr - first, int(a.ec), b.ptr - first, int(b.ec));
    }
}

// Random texts, most of them of digits.
static void beside_from_chars(int texts)
{
    std::mt19937 random(1);
    const char bytes[] = "0123456789+-abzXZ_ 00011999";
    for (int i = 0; i < texts; ++i) {
        std::string text(random() % 24, '0');
        bool of_digits = random() % 2;
        for (auto &byte : text) byte = of_digits ? char('0' + random() % 10) : bytes[random() % (sizeof bytes - 1)];
        if (!text.empty() && random() % 3 == 0) text[0] = '-';
        int base = i % 3 ? 10 : 2 + int(random() % 35);
        beside_std<std::uint64_t>(text, base);
        beside_std<std::int64_t>(text, base);
        beside_std<std::uint8_t>(text, base);
        beside_std<std::int8_t>(text, base);
        beside_std<int>(text, base);
        beside_std<unsigned short>(text, base);
        beside_std<char>(text, base);
        beside_std<long long>(text, base);
    }
}

// Columns into what has its numbers in a row, and what is left of that at a fault.
static void columns()
{
    std::vector<int> values(3, 77);
    auto read = jadvolni::parse_column("1,-2,", ',', values);
    CHECK(read && read.count() == 2 && read.place() == 5 && values == std::vector<int>{1, -2, 77});
    read = jadvolni::parse_column("8,9,10,x", ',', values.data(), 2);
    CHECK(read && read.count() == 2 && read.place() == 4 && values == std::vector<int>{8, 9, 77});
    read = jadvolni::parse_column("3,x", ',', values);
    CHECK(!read && read.status() == status::invalid_digit && read.place() == 2 && read.count() == 1);
    CHECK(std::strcmp(read.message(), "invalid digit") == 0);
    CHECK(std::strcmp(read.name(), "InvalidDigit") == 0 && values == std::vector<int>{3, 9, 77});
    std::array<unsigned char, 2> bytes{};
    auto hexadecimal = jadvolni::standard;
    hexadecimal.mantissa_radix = 16;
    CHECK(jadvolni::parse_column("fF 100", ' ', bytes, hexadecimal).status() == status::overflow && bytes[0] == 255);
    hexadecimal.mantissa_radix = 37;
    CHECK(jadvolni::parse_column("1", ' ', bytes, hexadecimal).status() == status::invalid_mantissa_radix);
    long long wide[2] = {7, 7};
    CHECK(jadvolni::parse_column("-9223372036854775808\xff", '\xff', wide).place() == 21 && wide[0] == LLONG_MIN);
    CHECK(jadvolni::parse_column(std::string_view(), '\n', static_cast<short *>(nullptr), 0));
}

// The numbers of a column as a T, beside those of a loop of std::from_chars.
template <class T>
static void column_beside_std(std::mt19937_64 &random)
{
    std::vector<T> ours(1000), theirs;
    std::string text;
    for (int i = 0; i < 1000; ++i) text += std::to_string(T(random() >> random() % 64)) + '\n';
    for (const char *at = text.data(), *last = at + text.size(); at != last; ++at) {
        T number{};
        at = std::from_chars(at, last, number).ptr;
        theirs.push_back(number);
    }
    auto read = jadvolni::parse_column(text, '\n', ours);
    CHECK(read && read.count() == 1000 && read.place() == text.size() && ours == theirs);
}

// The numbers of a text that comes in blocks of a size, with room for some at a time.
static std::vector<int> in_blocks(std::string_view text, std::size_t size, std::size_t room)
{
    std::vector<int> found, values(room);
    std::string kept;
    for (std::size_t at = 0;;) {
        auto block = text.substr(at, size);
        at += block.size();
        kept += block;
        for (;;) {
            auto read = jadvolni::parse_column_part(kept, block.empty(), ',', values);
            if (!read) return {};
            found.insert(found.end(), values.begin(), values.begin() + std::ptrdiff_t(read.count()));
            kept.erase(0, read.place());
            if (read.count() < room) break;
        }
        if (block.empty()) return found;
    }
}

static void columns_in_parts()
{
    for (std::size_t size = 1; size < 12; ++size)
        for (std::size_t room : {1u, 2u, 9u}) {
            CHECK(in_blocks("12,-7,300,4", size, room) == std::vector<int>{12, -7, 300, 4});
            CHECK(in_blocks("99,1,", size, room) == std::vector<int>{99, 1});
            CHECK(in_blocks("", size, room).empty());
        }
    int value = 77;
    auto read = jadvolni::parse_column_part("x", false, ',', &value, 1);
    CHECK(read && read.count() == 0 && read.place() == 0 && value == 77);
    read = jadvolni::parse_column_part("1,x,", false, ',', &value, 1);
    CHECK(read && read.count() == 1 && read.place() == 2 && value == 1);
    CHECK(jadvolni::parse_column_part("x,", false, ',', &value, 1).status() == status::invalid_digit);
    read = jadvolni::parse_column_part("0xF;0x", false, ';', &value, 1, jadvolni::literal);
    CHECK(read && read.place() == 4 && value == 15);
    std::vector<int> values(1);
    CHECK(jadvolni::parse_column_part("0x1F", true, ';', values, jadvolni::literal) && values[0] == 31);
}

static void columns_beside_from_chars()
{
    std::mt19937_64 random(1);
    for (int i = 0; i < 20; ++i) {
        column_beside_std<signed char>(random);
        column_beside_std<unsigned char>(random);
        column_beside_std<short>(random);
        column_beside_std<unsigned short>(random);
        column_beside_std<int>(random);
        column_beside_std<unsigned>(random);
        column_beside_std<long>(random);
        column_beside_std<unsigned long>(random);
        column_beside_std<long long>(random);
        column_beside_std<unsigned long long>(random);
    }
}

static void literals()
{
    auto has = [](std::string_view text, const jadvolni::format &under, std::uint64_t value, std::string_view suffix,
                  std::size_t place) {
        auto read = jadvolni::parse_literal(text, under);
        return read && read->value.low == value && read->value.high == 0 && read->suffix == suffix
            && read.place() == place && read->suffix.data() == text.data() + place - suffix.size();
    };
    CHECK(has("0xFFull;", jadvolni::formats::c, 255, "ull", 7));
    CHECK(has("1'0z", jadvolni::formats::cpp14, 10, "z", 4));
    // (two separators don't continue a number in C++: an empty character constant follows, which is an error)
    CHECK(has("1''0", jadvolni::formats::cpp14, 1, "", 1));
    const auto twice = jadvolni::parse<int>("1''0", jadvolni::formats::cpp14);
    CHECK(!twice && twice.status() == status::invalid_digit && twice.place() == 1);
    CHECK(has("1_000i64", jadvolni::formats::rust, 1000, "i64", 8));
    CHECK(has("1", jadvolni::formats::rust, 1, "", 1));
    auto none = jadvolni::parse_literal(std::string_view(), jadvolni::formats::c);
    CHECK(!none && none.status() == status::empty && none.place() == 0);
    CHECK(jadvolni::parse_literal("0xu", jadvolni::formats::c).status() == status::empty);
}

static void typed_literals()
{
    static constexpr jadvolni::suffix_entry table[] = {
        jadvolni::suffix_of<int>(""), jadvolni::suffix_of<unsigned char>("u8"), jadvolni::suffix_of<long long>("ll"),
        jadvolni::suffix_of<unsigned short>("u16"), jadvolni::suffix_of<std::uint64_t>("ull")};
    static_assert(table[0].type == JADVOLNI_TYPE_I32 && table[1].type == JADVOLNI_TYPE_U8);
    static_assert(table[2].type == JADVOLNI_TYPE_I64 && table[3].type == JADVOLNI_TYPE_U16);
    static_assert(jadvolni::suffix_of<std::int8_t>("i8").type == JADVOLNI_TYPE_I8);
    static_assert(jadvolni::suffix_of<std::int16_t>("i16").type == JADVOLNI_TYPE_I16);
    static_assert(jadvolni::suffix_of<std::uint32_t>("u").type == JADVOLNI_TYPE_U32);
    static_assert(jadvolni::suffix_of<std::uint64_t>("ull").type == JADVOLNI_TYPE_U64);
    static_assert(jadvolni::suffix_of<jadvolni_native_uint128>("u128").type == JADVOLNI_TYPE_U128);
    static_assert(jadvolni::suffix_of<jadvolni_native_int128>("i128").type == JADVOLNI_TYPE_I128);
    auto read = jadvolni::parse_typed_literal("0xFFull;", jadvolni::formats::c, table);
    CHECK(read && read->value.low == 255 && read->value.high == 0 && read->suffix == "ull" && read->entry == 4);
    CHECK(read.place() == 7);
    const std::vector<jadvolni::suffix_entry> entries(std::begin(table), std::end(table));
    auto bare = jadvolni::parse_typed_literal("12 ", jadvolni::formats::c, entries);
    CHECK(bare && bare->value.low == 12 && bare->suffix.empty() && bare->entry == 0 && bare.place() == 2);
    auto refused = [](std::string_view text, status wanted, std::size_t place) {
        auto answer = jadvolni::parse_typed_literal(text, jadvolni::formats::rust, table);
        return !answer && answer.status() == wanted && answer.place() == place;
    };
    CHECK(refused("300u8", status::overflow, 2));
    CHECK(refused("2147483648", status::overflow, 9));
    CHECK(refused("0b102", status::invalid_digit, 4));
    CHECK(refused("12abc", status::unknown_suffix, 2));
    CHECK(refused("-1", status::empty, 0));
    const jadvolni::suffix_entry untyped[] = {{}};
    auto none = jadvolni::parse_typed_literal("1", jadvolni::formats::c, untyped);
    CHECK(!none && none.status() == status::invalid_suffix_table && none.place() == 0);
}

int main()
{
    faults_of_texts();
    faults_of_formats();
    texts_of_statuses();
    numbers();
    fixed_point();
    fronts_under_a_format();
    fronts_without_a_digit();
    wrong_bases();
    literals();
    typed_literals();
    columns();
    columns_in_parts();
    columns_beside_from_chars();
    beside_from_chars(25000);
    return checked();
}
