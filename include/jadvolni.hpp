// jadvolni.hpp - jadvolni.h for C++17. It is a header alone: link the same library.
//
//     if (auto port = jadvolni::parse<std::uint16_t>(text))
//         use(*port);
//     else
//         std::cerr << port.message() << " at byte " << port.place() << '\n';
//
//     auto literal = jadvolni::parse_literal("0xFFull;", jadvolni::formats::c); // 255 and "ull"
//
//     static constexpr jadvolni::suffix_entry suffixes[] = {jadvolni::suffix_of<std::uint8_t>("u8")};
//     auto typed = jadvolni::parse_typed_literal("300u8", jadvolni::formats::rust, suffixes); // overflow
//
//     auto port = jadvolni::parse_within<std::uint16_t>(text, 1, 65535); // or why not
//
//     auto [ptr, ec] = jadvolni::from_chars(first, last, value); // as std::from_chars
//
//     std::vector<int> values(1000);
//     auto read = jadvolni::parse_column(text, '\n', values); // a number on each line
//
// parse_table reads tables, as do parse_table_skipping, which skips bad rows, and table_blocks, for files of any size.
// Columns are integers, fixed-point numbers or texts. table_fault says where a fault is: its line, row and cell, in
// words too. Rows, columns, lines and places count from 0; in words, lines and columns count from 1, as in an editor.
//
// T may be any integer type of C++ but bool and the wide character types, and, with gcc and clang, a 128-bit type. No
// call throws or allocates, and the header also compiles without exceptions. What the calls of jadvolni.h answer is
// proved; what this header adds to them is tested. jadvolni_columns.hpp finds the columns of a table by the names in
// its header.
#pragma once

#if __cplusplus < 201703L
#error "jadvolni.hpp needs C++17"
#endif

#include "jadvolni.h"

#include <algorithm>
#include <cassert>
#include <charconv>
#include <cstddef>
#include <cstdint>
#include <iterator>
#include <optional>
#include <string_view>
#include <system_error>
#include <type_traits>
#include <utility>

namespace jadvolni {

// The statuses of jadvolni.h, which describes each.
enum class status : std::uint32_t {
    ok = JADVOLNI_OK,
    overflow = JADVOLNI_OVERFLOW,
    underflow = JADVOLNI_UNDERFLOW,
    invalid_digit = JADVOLNI_INVALID_DIGIT,
    empty = JADVOLNI_EMPTY,
    missing_sign = JADVOLNI_MISSING_SIGN,
    invalid_positive_sign = JADVOLNI_INVALID_POSITIVE_SIGN,
    invalid_leading_zeros = JADVOLNI_INVALID_LEADING_ZEROS,
    invalid_mantissa_radix = JADVOLNI_INVALID_MANTISSA_RADIX,
    invalid_digit_separator = JADVOLNI_INVALID_DIGIT_SEPARATOR,
    invalid_base_prefix = JADVOLNI_INVALID_BASE_PREFIX,
    invalid_base_suffix = JADVOLNI_INVALID_BASE_SUFFIX,
    invalid_punctuation = JADVOLNI_INVALID_PUNCTUATION,
    invalid_literal_prefixes = JADVOLNI_INVALID_LITERAL_PREFIXES,
    too_few_cells = JADVOLNI_TOO_FEW_CELLS,
    too_many_cells = JADVOLNI_TOO_MANY_CELLS,
    missing_return = JADVOLNI_MISSING_RETURN,
    invalid_table = JADVOLNI_INVALID_TABLE,
    misplaced_quote = JADVOLNI_MISPLACED_QUOTE,
    invalid_fixed_radix = JADVOLNI_INVALID_FIXED_RADIX,
    invalid_fixed_affix = JADVOLNI_INVALID_FIXED_AFFIX,
    invalid_point = JADVOLNI_INVALID_POINT,
    invalid_places = JADVOLNI_INVALID_PLACES,
    unknown_suffix = JADVOLNI_UNKNOWN_SUFFIX,
    invalid_suffix_table = JADVOLNI_INVALID_SUFFIX_TABLE,
    unknown_field = JADVOLNI_UNKNOWN_FIELD
};

// The name of a status, such as "Overflow".
inline const char *name(status of) noexcept
{
    return jadvolni_status_name(static_cast<std::uint32_t>(of));
}

// What a status means, as a sentence: what is wrong with the text, or what the format's field has to be.
inline const char *message(status of) noexcept
{
    return jadvolni_status_text(static_cast<std::uint32_t>(of));
}

// Which texts are numbers. Begin with jadvolni_format_of_radix, or copy one of these, and change fields. A format{}
// has the radix 0, which each call with a format refuses. With the radix set it requires no digit, and an empty text is
// 0.
using format = jadvolni_format;
inline constexpr format standard = JADVOLNI_FORMAT_STANDARD;
inline constexpr format literal = JADVOLNI_FORMAT_LITERAL;

// The formats of languages and of data: docs/FORMATS.md describes them.
namespace formats {
inline constexpr format c = JADVOLNI_FORMAT_C;
inline constexpr format c_decimal = JADVOLNI_FORMAT_C_DECIMAL;
inline constexpr format c_octal = JADVOLNI_FORMAT_C_OCTAL;
inline constexpr format c_hexadecimal = JADVOLNI_FORMAT_C_HEXADECIMAL;
inline constexpr format c23 = JADVOLNI_FORMAT_C23;
inline constexpr format cpp14 = JADVOLNI_FORMAT_CPP14;
inline constexpr format csharp = JADVOLNI_FORMAT_CSHARP;
inline constexpr format java = JADVOLNI_FORMAT_JAVA;
inline constexpr format kotlin = JADVOLNI_FORMAT_KOTLIN;
inline constexpr format rust = JADVOLNI_FORMAT_RUST;
inline constexpr format go = JADVOLNI_FORMAT_GO;
inline constexpr format swift = JADVOLNI_FORMAT_SWIFT;
inline constexpr format ada = JADVOLNI_FORMAT_ADA;
inline constexpr format vhdl = JADVOLNI_FORMAT_VHDL;
inline constexpr format assembler_hexadecimal = JADVOLNI_FORMAT_ASSEMBLER_HEXADECIMAL;
inline constexpr format python = JADVOLNI_FORMAT_PYTHON;
inline constexpr format ruby = JADVOLNI_FORMAT_RUBY;
inline constexpr format javascript = JADVOLNI_FORMAT_JAVASCRIPT;
inline constexpr format julia = JADVOLNI_FORMAT_JULIA;
inline constexpr format haskell = JADVOLNI_FORMAT_HASKELL;
inline constexpr format ocaml = JADVOLNI_FORMAT_OCAML;
inline constexpr format json = JADVOLNI_FORMAT_JSON;
inline constexpr format json5 = JADVOLNI_FORMAT_JSON5;
inline constexpr format toml = JADVOLNI_FORMAT_TOML;
inline constexpr format yaml = JADVOLNI_FORMAT_YAML;
inline constexpr format sql = JADVOLNI_FORMAT_SQL;
inline constexpr format sql_2023 = JADVOLNI_FORMAT_SQL_2023;
} // namespace formats

// The first rule that the format breaks, or status::ok.
[[nodiscard]] inline status format_error(const format &of) noexcept
{
    return static_cast<status>(jadvolni_format_error(&of));
}

// The status and the place that each call returns, besides what it has read.
class outcome {
public:
    outcome(std::uint32_t status, std::size_t place) noexcept
        : place_(place), status_(static_cast<jadvolni::status>(status))
    {
    }

    // Whether there is no fault.
    explicit operator bool() const noexcept { return status_ == jadvolni::status::ok; }

    // The fault: its status, its name, and its message.
    jadvolni::status status() const noexcept { return status_; }
    const char *name() const noexcept { return jadvolni::name(status_); }
    const char *message() const noexcept { return jadvolni::message(status_); }

    // Where reading stopped, and the next call may continue; or the place of the fault.
    std::size_t place() const noexcept { return place_; }

private:
    std::size_t place_;
    jadvolni::status status_;
};

// A number, or a fault. Its place() is the number of bytes read, or the place of the wrong byte.
template <class T>
class result : public outcome {
public:
    result(T number, jadvolni_result answer) noexcept
        : outcome(answer.status, answer.place), number_(number)
    {
    }

    // Whether there is a number.
    bool has_value() const noexcept { return bool(*this); }

    // The number. There must be one. From a temporary, a copy.
    const T &operator*() const & noexcept
    {
        assert(has_value());
        return number_;
    }
    T operator*() && noexcept { return *std::as_const(*this); }

    // A member of the number.
    const T *operator->() const noexcept { return &**this; }

    // The number, or `other` if there is none.
    T value_or(T other) const noexcept { return has_value() ? number_ : other; }
    std::optional<T> optional() const noexcept
    {
        return has_value() ? std::optional<T>(number_) : std::nullopt;
    }

private:
    T number_;
};

namespace detail {

// The eight calls for numbers of the type Kept.
template <class Kept>
struct calls;

#define JADVOLNI_CALLS_OF_(kept, name)                                                      \
    template <>                                                                             \
    struct calls<kept> {                                                                    \
        static constexpr auto complete = &jadvolni_parse_##name;                            \
        static constexpr auto front = &jadvolni_parse_##name##_front;                       \
        static constexpr auto partial = &jadvolni_parse_##name##_partial;                   \
        static constexpr auto complete_under = &jadvolni_parse_##name##_with_format;        \
        static constexpr auto front_under = &jadvolni_parse_##name##_front_with_format;     \
        static constexpr auto partial_under = &jadvolni_parse_##name##_partial_with_format; \
        static constexpr auto fixed = &jadvolni_parse_##name##_fixed;                       \
        static constexpr auto fixed_front = &jadvolni_parse_##name##_fixed_front;           \
    }
JADVOLNI_CALLS_OF_(std::uint8_t, u8);
JADVOLNI_CALLS_OF_(std::uint16_t, u16);
JADVOLNI_CALLS_OF_(std::uint32_t, u32);
JADVOLNI_CALLS_OF_(std::uint64_t, u64);
JADVOLNI_CALLS_OF_(jadvolni_uint128, u128);
JADVOLNI_CALLS_OF_(std::int8_t, i8);
JADVOLNI_CALLS_OF_(std::int16_t, i16);
JADVOLNI_CALLS_OF_(std::int32_t, i32);
JADVOLNI_CALLS_OF_(std::int64_t, i64);
JADVOLNI_CALLS_OF_(jadvolni_int128, i128);
#undef JADVOLNI_CALLS_OF_

// The call that reads a column into an array of Kept, and the member of a table's column for such an array.
template <class Kept>
struct column_call;

#define JADVOLNI_COLUMN_OF_(kept, name)                                           \
    template <>                                                                   \
    struct column_call<kept> {                                                    \
        static constexpr auto read = &jadvolni_parse_##name##_column;             \
        static constexpr auto array = &jadvolni_table_column::name;               \
    }
JADVOLNI_COLUMN_OF_(std::uint8_t, u8);
JADVOLNI_COLUMN_OF_(std::uint16_t, u16);
JADVOLNI_COLUMN_OF_(std::uint32_t, u32);
JADVOLNI_COLUMN_OF_(std::uint64_t, u64);
JADVOLNI_COLUMN_OF_(std::int8_t, i8);
JADVOLNI_COLUMN_OF_(std::int16_t, i16);
JADVOLNI_COLUMN_OF_(std::int32_t, i32);
JADVOLNI_COLUMN_OF_(std::int64_t, i64);
#undef JADVOLNI_COLUMN_OF_

// Whether a temporary may be passed, such as a std::span: it doesn't own its numbers, so they outlive it, and they are
// writable even if it is const.
template <class Values>
inline constexpr bool is_view = std::is_trivially_destructible_v<Values>
    && !std::is_const_v<std::remove_pointer_t<decltype(std::data(std::declval<const Values &>()))>>;

template <class T, class... Others>
inline constexpr bool is_one_of = (std::is_same_v<T, Others> || ...);

// The type of the library's calls that holds a T: the one of its width and sign. So `long` and `long long`, which are
// two types of one width, are both read.
template <class T, class = void>
struct kept_as {
    static_assert(std::is_integral_v<T> && !std::is_const_v<T> && !std::is_volatile_v<T>
                      && !is_one_of<T, bool, wchar_t, char16_t, char32_t> && sizeof(T) <= 8,
                  "jadvolni reads integers that may be written, and no bool or wide character");
    using narrow = std::conditional_t<sizeof(T) == 1, std::int8_t, std::int16_t>;
    using wide = std::conditional_t<sizeof(T) == 4, std::int32_t, std::int64_t>;
    using with_sign = std::conditional_t<sizeof(T) <= 2, narrow, wide>;
    using type = std::conditional_t<std::is_signed_v<T>, with_sign, std::make_unsigned_t<with_sign>>;
    static T number(type kept) noexcept { return static_cast<T>(kept); }
};

#ifdef __SIZEOF_INT128__
template <>
struct kept_as<jadvolni_native_uint128> {
    using type = jadvolni_uint128;
    static jadvolni_native_uint128 number(type kept) noexcept { return jadvolni_u128_number(kept); }
};

template <>
struct kept_as<jadvolni_native_int128> {
    using type = jadvolni_int128;
    static jadvolni_native_int128 number(type kept) noexcept { return jadvolni_i128_number(kept); }
};
#endif

// Calls the library on a text, and makes the number a T.
template <class T, class Call, class... Under>
result<T> called(Call *call, std::string_view text, const Under *...under) noexcept
{
    typename kept_as<T>::type kept{};
    auto answer = call(text.data(), text.size(), under..., &kept);
    return {kept_as<T>::number(kept), answer};
}

template <class T>
using calls_as = calls<typename kept_as<T>::type>;

// The code of the type that holds a T.
template <class T>
constexpr std::uint32_t type_code() noexcept
{
    using kept = typename kept_as<T>::type;
    if constexpr (std::is_same_v<kept, jadvolni_uint128>) return JADVOLNI_TYPE_U128;
    else if constexpr (std::is_same_v<kept, jadvolni_int128>) return JADVOLNI_TYPE_I128;
    else if constexpr (std::is_same_v<kept, std::uint8_t>) return JADVOLNI_TYPE_U8;
    else if constexpr (std::is_same_v<kept, std::uint16_t>) return JADVOLNI_TYPE_U16;
    else if constexpr (std::is_same_v<kept, std::uint32_t>) return JADVOLNI_TYPE_U32;
    else if constexpr (std::is_same_v<kept, std::uint64_t>) return JADVOLNI_TYPE_U64;
    else if constexpr (std::is_same_v<kept, std::int8_t>) return JADVOLNI_TYPE_I8;
    else if constexpr (std::is_same_v<kept, std::int16_t>) return JADVOLNI_TYPE_I16;
    else if constexpr (std::is_same_v<kept, std::int32_t>) return JADVOLNI_TYPE_I32;
    else return JADVOLNI_TYPE_I64;
}

} // namespace detail

// Reads the whole text as a T.
template <class T>
[[nodiscard]] result<T> parse(std::string_view text) noexcept
{
    return detail::called<T>(detail::calls_as<T>::complete, text);
}

// Reads the whole text as a T, under a format.
template <class T>
[[nodiscard]] result<T> parse(std::string_view text, const format &under) noexcept
{
    return detail::called<T>(detail::calls_as<T>::complete_under, text, &under);
}

// Reads the number at the beginning of the text as a T. Its place() is where reading stopped; without a digit it is
// status::empty. If more bytes may come, a result at the text's end isn't final.
template <class T>
[[nodiscard]] result<T> parse_front(std::string_view text) noexcept
{
    return detail::called<T>(detail::calls_as<T>::front, text);
}

// Reads the number at the beginning of the text as a T, under a format. If that has a separator, and more bytes may
// come, a result before separators that end the text isn't final either: "1_" may continue as "1_0".
template <class T>
[[nodiscard]] result<T> parse_front(std::string_view text, const format &under) noexcept
{
    return detail::called<T>(detail::calls_as<T>::front_under, text, &under);
}

// As parse_front, but digits may be missing: without them it is usually 0.
template <class T>
[[nodiscard]] result<T> parse_partial(std::string_view text) noexcept
{
    return detail::called<T>(detail::calls_as<T>::partial, text);
}

// As parse_front under a format, but digits may be missing.
template <class T>
[[nodiscard]] result<T> parse_partial(std::string_view text, const format &under) noexcept
{
    return detail::called<T>(detail::calls_as<T>::partial_under, text, &under);
}

// How fixed-point numbers are written: begin with {}, and set what differs.
using fixed = jadvolni_fixed;

// Reads the whole text as a fixed-point number, as a T in units of the last place: "12.50" with two places is 1250.
// Nothing is rounded. ".5" is read only if the integer part requires no digit.
template <class T>
[[nodiscard]] result<T> parse_fixed(std::string_view text, const fixed &under) noexcept
{
    return detail::called<T>(detail::calls_as<T>::fixed, text, &under);
}

// Reads the fixed-point number at the beginning of the text as a T. Its place() is where reading stopped. If more bytes
// may come, a result at the text's end isn't final, nor is one before a point or separators that end the text: "12." may
// continue as "12.5".
template <class T>
[[nodiscard]] result<T> parse_fixed_front(std::string_view text, const fixed &under) noexcept
{
    return detail::called<T>(detail::calls_as<T>::fixed_front, text, &under);
}

// Line and column of a place in a text, both from 0: the line feeds before it, and the bytes after the last of them.
[[nodiscard]] inline jadvolni_position line_column(std::string_view text, std::size_t place) noexcept
{
    return jadvolni_line_column(text.data(), text.size(), place);
}

// The number of a literal, and its suffix, which points into the text. jadvolni_u128_number(value) is an integer of the
// compiler's own 128 bits.
struct literal_parts {
    jadvolni_uint128 value;
    std::string_view suffix;
};

// Reads the literal at the beginning of the text, under the format of its language: "0xFFull" has the suffix "ull". Its
// place() is after the suffix. docs/FORMATS.md lists the suffixes of each language. The format's own base_suffix, as
// the L of Java and Kotlin or the n of JavaScript, is part of the number: clear the field to get it as the suffix. The
// number has no minus under any format, and a plus if the format allows one.
[[nodiscard]] inline result<literal_parts> parse_literal(std::string_view text,
                                                         const format &under) noexcept
{
    literal_parts parts{};
    std::size_t suffix = 0;
    auto answer = jadvolni_parse_literal(text.data(), text.size(), &under, &parts.value, &suffix);
    if (answer.status == JADVOLNI_OK)
        parts.suffix = std::string_view(text.data() + suffix, answer.place - suffix);
    return {parts, answer};
}

// An entry of a table of suffixes: a suffix and the type that it names. suffix_of makes one.
using suffix_entry = jadvolni_suffix;

// The entry of a suffix that names the integer type T: suffix_of<std::uint8_t>("u8"). It keeps a pointer to the suffix,
// whose bytes must outlive it, as those of a string constant do.
template <class T>
constexpr suffix_entry suffix_of(std::string_view text) noexcept
{
    return {text.data(), text.size(), detail::type_code<T>(), 0};
}

// The number of a literal, its suffix, which points into the text, and the index of the suffix's first entry in the
// table.
struct typed_literal_parts {
    jadvolni_uint128 value;
    std::string_view suffix;
    std::size_t entry;
};

// Reads the literal at the beginning of the text, and checks it against the type that its suffix names in a table,
// which is an array or a container of entries: "300u8" is status::overflow at 2, "0b102" status::invalid_digit at 4,
// and "12abc" status::unknown_suffix at 2. A literal has no minus. The format's own base_suffix is part of the number,
// and never looked up: clear the field for that. If more bytes may come, take no result as final while the suffix, or
// separators after the number, reach the text's end: "300u" may continue as "300u16".
template <class Table>
[[nodiscard]] result<typed_literal_parts> parse_typed_literal(std::string_view text, const format &under,
                                                              const Table &suffixes) noexcept
{
    typed_literal_parts parts{};
    std::size_t suffix = 0;
    auto answer = jadvolni_parse_typed_literal(text.data(), text.size(), &under, std::data(suffixes),
                                               std::size(suffixes), &parts.value, &suffix,
                                               &parts.entry);
    if (answer.status == JADVOLNI_OK)
        parts.suffix = std::string_view(text.data() + suffix, answer.place - suffix);
    return {parts, answer};
}

// What was read of a column: how many numbers, and where reading stopped; or the fault.
class column_result : public outcome {
public:
    column_result(std::size_t count, jadvolni_result answer) noexcept
        : outcome(answer.status, answer.place), count_(count)
    {
    }

    // How many numbers were read. At a fault, this is the index of its field, from 0.
    std::size_t count() const noexcept { return count_; }

private:
    std::size_t count_;
};

// Reads the numbers of the text's fields into an array, as long as there is room. A separator, which may be any byte,
// is between two fields. After a fault the numbers before it are there, and the rest of the array is unchanged. For a
// file that is read in blocks use parse_column_part. For lines with carriage returns, blanks, missing numbers or
// fixed-point numbers use the parse_column of jadvolni_tables.hpp, which takes a table and a column.
template <class T>
[[nodiscard]] column_result parse_column(std::string_view text, char separator, T *values,
                                   std::size_t capacity, const format &under = standard) noexcept
{
    using kept = typename detail::kept_as<T>::type;
    static_assert(sizeof(T) <= 8, "a column has numbers of up to 64 bits");
    std::size_t count = 0;
    auto answer = detail::column_call<kept>::read(
        text.data(), text.size(), static_cast<unsigned char>(separator), &under,
        reinterpret_cast<kept *>(values), capacity, &count);
    return {count, answer};
}

// Reads a column into contiguous numbers: a std::vector, a std::array, a std::span, an array.
template <class Values>
[[nodiscard]] auto parse_column(std::string_view text, char separator, Values &&values,
                          const format &under = standard) noexcept
    -> decltype(parse_column(text, separator, std::data(values), std::size(values), under))
{
    return parse_column(text, separator, std::data(values), std::size(values), under);
}

// Reads the column of a part of a text, such as a block of a file: its whole fields, or all of it if it is the last
// part. Put the bytes from place() on in front of the next part: then all parts give the numbers of the whole text. If
// the array is full, continue at place() as usual.
template <class T>
[[nodiscard]] column_result parse_column_part(std::string_view text, bool is_last, char separator,
                                              T *values, std::size_t capacity,
                                              const format &under = standard) noexcept
{
    auto whole = is_last ? text.size()
                         : jadvolni_field_start(text.data(), text.size(),
                                                static_cast<unsigned char>(separator));
    return parse_column(text.substr(0, whole), separator, values, capacity, under);
}

template <class Values>
[[nodiscard]] auto parse_column_part(std::string_view text, bool is_last, char separator,
                                     Values &&values, const format &under = standard) noexcept
    -> decltype(parse_column(text, separator, std::data(values), std::size(values), under))
{
    return parse_column_part(text, is_last, separator, std::data(values), std::size(values), under);
}

namespace detail {

// The value of a byte as a digit: 0 to 35, or 36 if it isn't one.
inline int digit_value(char byte) noexcept
{
    if (byte >= '0' && byte <= '9') return byte - '0';
    if (byte >= 'a' && byte <= 'z') return byte - 'a' + 10;
    if (byte >= 'A' && byte <= 'Z') return byte - 'A' + 10;
    return 36;
}

} // namespace detail

// Reads the number at the beginning of [first, last) as a T, under a format. At std::errc() `ptr` is where reading
// stopped, and a digit was read, whatever the format requires; the zero of a prefix such as "0x" isn't one. If the type
// can't hold the number, the result is std::errc::result_out_of_range, with `ptr` at the digit at which it leaves the
// type. Everything else is std::errc::invalid_argument at `first`: no digit, any other fault, an invalid format. Only
// at std::errc() does `value` change.
template <class T>
std::from_chars_result from_chars(const char *first, const char *last, T &value,
                                  const format &under) noexcept
{
    auto read = parse_front<T>({first, static_cast<std::size_t>(last - first)}, under);
    if (read.status() == status::overflow || read.status() == status::underflow)
        return {first + read.place(), std::errc::result_out_of_range};
    if (!read) return {first, std::errc::invalid_argument};
    value = *read;
    return {first + read.place(), std::errc()};
}

// As std::from_chars, with its results: reads the number at the beginning of [first, last) as a T in a base, without a
// plus. `ptr` is after the digits, even if the type can't hold the number; without digits it is `first`, with
// std::errc::invalid_argument. So is a base that isn't from 2 to 36, which std::from_chars leaves undefined.
template <class T>
std::from_chars_result from_chars(const char *first, const char *last, T &value,
                                  int base = 10) noexcept
{
    if (first == last || *first == '+') return {first, std::errc::invalid_argument};
    std::string_view text{first, static_cast<std::size_t>(last - first)};
    auto read = base == 10 ? parse_front<T>(text)
                           : parse_front<T>(text, jadvolni_format_of_radix(base));
    const char *stop = first + read.place();
    if (read.status() == status::overflow || read.status() == status::underflow) {
        while (stop != last && detail::digit_value(*stop) < base) ++stop;
        return {stop, std::errc::result_out_of_range};
    }
    if (!read) return {first, std::errc::invalid_argument};
    value = *read;
    return {stop, std::errc()};
}

} // namespace jadvolni

// The other parts, each after those that it needs. Each includes this header first: so if one is included alone, this
// header includes it in turn, and its own text is then empty.
#include "jadvolni_tables.hpp"

#include "jadvolni_faults.hpp"

#include "jadvolni_blocks.hpp"
#include "jadvolni_within.hpp"
