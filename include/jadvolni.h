/*
 * jadvolni.h - integers from bytes, proved. It needs C99 or C++11.
 *
 * A call reads one integer from the `len` bytes at `text`. The bytes may have any values, and need not
 * end with a NUL:
 *
 *     uint16_t port;
 *     jadvolni_result r = jadvolni_parse_u16(text, len, &port);
 *     if (r.status != JADVOLNI_OK)
 *         fprintf(stderr, "%s at byte %zu\n", jadvolni_status_text(r.status), r.place);
 *
 * THE CALLS. Each of the twelve types u8, u16, u32, u64, u128, usize, i8, i16, i32, i64, i128 and
 * isize has six, shown here for u64:
 *
 *     jadvolni_parse_u64(text, len, &value)          the whole text
 *     jadvolni_parse_u64_front(text, len, &value)    the number at the beginning of the text
 *     jadvolni_parse_u64_partial(text, len, &value)  the same, but digits may be missing
 *
 * and each of these with `_with_format` after its name and `&format` before `&value`. From C11 on
 * jadvolni_parse(text, len, &value) is the first of them for the type of `value`.
 *
 * Without a format they use JADVOLNI_FORMAT_STANDARD: decimal digits, with an optional "+" before
 * them, or, if the type is signed, "-". `_front` stops at the first byte that doesn't belong to the
 * number: "12, 13" gives 12, and the place 2. If it has read no digit, it returns JADVOLNI_EMPTY at
 * the place where it stopped: 0 in "x", and 1 in "+a".
 *
 * IF MORE BYTES MAY COME, as from a stream, a result of `_front` at place `len` isn't final: "12" may
 * continue as "123". Nor, under a format with a separator, is one before separators that end the
 * text: "1_" may continue as "1_0". Call again with more bytes. Any other is final, except of
 * `_fixed_front` and jadvolni_parse_typed_literal, which say more at their declarations.
 *
 * DON'T USE `_partial` IF YOU NEED A NUMBER: if other bytes stand where digits should, it usually
 * returns JADVOLNI_OK and 0. Under the standard format "x" is 0 at place 0, and "+a" 0 at place 1.
 *
 * Eight of the types, u8 to u64 and i8 to i64, have a call that reads many numbers at once, described
 * at its declaration below:
 *
 *     jadvolni_parse_u64_column(text, len, separator, &format, values, capacity, &count)
 *
 * jadvolni_parse_literal reads a literal with its suffix, such as "0xFFull" or "1_000i64", and
 * jadvolni_parse_typed_literal checks it against the type that its suffix names. Each type also has
 * two calls for amounts of money, such as "-1.234,50":
 *
 *     jadvolni_parse_i64_fixed(text, len, &fixed, &value)
 *     jadvolni_parse_i64_fixed_front(text, len, &fixed, &value)
 *
 * WHAT A CALL RETURNS
 *
 *     r.status  JADVOLNI_OK, or what is wrong with the text or with the format. A fault of the format
 *               comes before those of the text. Of these the one at the earliest place is returned,
 *               and if a required sign is missing there, that. Typed literals and tables have their own
 *               order, described at their declarations.
 *     r.place   A byte offset in the text, from 0. At JADVOLNI_OK it is the number of bytes read. At
 *               a fault of the text it is the place of the wrong byte, or `len` if something is
 *               missing at the end. At a fault of the format it is 0.
 *     *value    The number at JADVOLNI_OK. At any other status it is unchanged.
 *
 * WHAT THE CALLER MUST ENSURE
 *
 *     `text` points to `len` readable bytes. It may be NULL if `len` is 0; such a text is
 *     JADVOLNI_EMPTY under the standard format.
 *     `len` is at most PTRDIFF_MAX.
 *     `value` and `format` are not NULL.
 *     `*value` overlaps neither the text nor the format.
 *     No other thread writes to the text or the format during the call.
 *
 * Where gcc and clang can see it, they warn of a NULL, of a `len` greater than the array at `text`,
 * and of an unused result.
 *
 * WHAT NO CALL DOES. No call allocates memory, keeps state between calls, sets errno, reads a locale,
 * skips spaces (unless a table allows blanks), or calls any other function. So any number of threads,
 * and signal handlers, may make calls at the same time.
 *
 * It is proved, for every text and every format, that each call returns, reads nothing outside the
 * text and the format, and answers exactly what the grammar says. docs/GRAMMAR.md has the grammar in
 * words, and docs/PROOFS.md what is proved, and where proof ends.
 */
#ifndef JADVOLNI_H
#define JADVOLNI_H

#ifndef __cplusplus
#if defined __STRICT_ANSI__ && (!defined __STDC_VERSION__ || __STDC_VERSION__ < 199901L)
#error "jadvolni.h needs C99"
#endif
#include <stdbool.h>
#elif __cplusplus < 201103L
#error "jadvolni.h needs C++11"
#endif
#include <stddef.h>
#include <stdint.h>

#ifdef __cplusplus
extern "C" {
#endif

/* ---- version ---- */

/* The version of this header. */
#define JADVOLNI_VERSION_MAJOR 0
#define JADVOLNI_VERSION_MINOR 2
#define JADVOLNI_VERSION_PATCH 0
#define JADVOLNI_VERSION_STRING "0.2.0"

/* The version as a number: 10000 * major + 100 * minor + patch. */
#define JADVOLNI_VERSION 200

/* The version of the library that the program is linked with, as such a number. */
uint32_t jadvolni_version(void);

/* ---- what a call returns ---- */

typedef enum jadvolni_status {
    /* The number was read. */
    JADVOLNI_OK = 0,

    /* The number is greater than the type's maximum. The place is that of the first digit at which the
     * value, read digit by digit, leaves the type, whatever follows: 2 in "2566" as u8. */
    JADVOLNI_OVERFLOW = 1,

    /* The number is less than the type's minimum. The place is that of the first digit at which the
     * value leaves the type, whatever follows: 3 in "-1290" as i8. Only a signed type has it: "-1" as
     * u8 is JADVOLNI_INVALID_DIGIT at 0, and with `_front` JADVOLNI_EMPTY at 0. */
    JADVOLNI_UNDERFLOW = 2,

    /* The call reads the whole text, and the text continues after the number. The place is that of the
     * first byte that isn't part of the number: 2 in "12x", and 0 in "x". Of the calls that read a
     * beginning, `_fixed_front` and jadvolni_parse_typed_literal return it too, as they say. */
    JADVOLNI_INVALID_DIGIT = 3,

    /* A digit is required and there is none, or the text ends directly after its prefix. The place is
     * where the digit is missing: 0 in "", 1 in "+", and 2 in "0x" with the prefix 'x'. In "_" it is
     * 1 if separators may come before the first digit or after the last one. */
    JADVOLNI_EMPTY = 4,

    /* The format requires a sign, and the text doesn't begin with one. The place is 0. */
    JADVOLNI_MISSING_SIGN = 5,

    /* The text begins with "+", which the format forbids. The place is 0. */
    JADVOLNI_INVALID_POSITIVE_SIGN = 6,

    /* The number has a leading zero, which the format forbids. The place is that of the first zero:
     * 1 in "-01". `_front` returns it too: "01" isn't 0 with the place 1. */
    JADVOLNI_INVALID_LEADING_ZEROS = 7,

    /* The format's radix isn't from 2 to 36. For this and the next five the place is 0. */
    JADVOLNI_INVALID_MANTISSA_RADIX = 8,

    /* The format's separator isn't ASCII, or it is '+', '-' or a digit of the radix. */
    JADVOLNI_INVALID_DIGIT_SEPARATOR = 9,

    /* The format's prefix isn't ASCII, or it is '+', '-' or a digit of the radix. */
    JADVOLNI_INVALID_BASE_PREFIX = 10,

    /* The format's suffix isn't ASCII, or it is '+', '-' or a digit of the radix. */
    JADVOLNI_INVALID_BASE_SUFFIX = 11,

    /* Two of the format's separator, prefix and suffix are the same byte, or a letter in two cases. */
    JADVOLNI_INVALID_PUNCTUATION = 12,

    /* The format has literal prefixes or octal zeros, and its radix isn't 10; or it has literal
     * prefixes, and also a prefix of its own, or a separator or suffix that is 'x', 'o' or a
     * hexadecimal digit, in either case. */
    JADVOLNI_INVALID_LITERAL_PREFIXES = 13,

    /* A row of a table has fewer cells than the table has columns. The place is where the row ends. */
    JADVOLNI_TOO_FEW_CELLS = 14,

    /* A row of a table has more cells than the table has columns. The place is where the first one too
     * many starts. */
    JADVOLNI_TOO_MANY_CELLS = 15,

    /* The table requires carriage returns, and the line feed at the place has none before it. */
    JADVOLNI_MISSING_RETURN = 16,

    /* The table is invalid: a reserved byte isn't 0, the number of widths is neither 0 nor that of the
     * columns, or its rows are records and it has no widths. Or the result's column is invalid: its
     * array or its bits have room for fewer rows than `capacity`, or it has a format and no array with
     * room. The place is 0. jadvolni_table_text says which of these it is. */
    JADVOLNI_INVALID_TABLE = 17,

    /* A quote in a cell neither encloses it nor is doubled within quotes that do, or it is never closed,
     * or it stands within a number. The place is that of the quote. In a cell that begins with a quote it is,
     * for a number, the second quote, and otherwise the one before the first byte outside quotes. If there
     * is none, it is the first, which is never closed. In "1"" it is 2 for a number, 0 for a text. */
    JADVOLNI_MISPLACED_QUOTE = 18,

    /* The radix of the integer part of fixed-point numbers isn't 10. For this and the next three the
     * place is 0. */
    JADVOLNI_INVALID_FIXED_RADIX = 19,

    /* The integer part has a prefix, a suffix, literal prefixes or octal zeros. */
    JADVOLNI_INVALID_FIXED_AFFIX = 20,

    /* The decimal point is a digit, '+', '-', or the separator of the integer part. */
    JADVOLNI_INVALID_POINT = 21,

    /* Fixed-point numbers have more than 38 decimal places. */
    JADVOLNI_INVALID_PLACES = 22,

    /* No entry of the table has the literal's suffix. The place is where the suffix begins: 2 in
     * "12abc", and in "12" if no entry has the empty suffix. */
    JADVOLNI_UNKNOWN_SUFFIX = 23,

    /* An entry of a table of suffixes names no type, or its reserved bytes aren't 0. The place is 0. */
    JADVOLNI_INVALID_SUFFIX_TABLE = 24,

    /* A reserved byte or bit of the format isn't 0: the format was written for a later version of the
     * library, or never initialized. This is checked before the rules of formats. The place is 0. */
    JADVOLNI_UNKNOWN_FIELD = 64
} jadvolni_status;

/* What a call returns, by value, in two registers. */
typedef struct jadvolni_result {
    uint32_t status; /* a jadvolni_status */
    size_t place;
} jadvolni_result;

/* ---- what compilers check ---- */

/* What gcc and clang warn of at compile time: an unused result, a NULL where none is allowed, and an
 * array shorter than the call says. The text and its length come first in each call. */
#ifdef __has_attribute
#if __has_attribute(nonnull) && __has_attribute(warn_unused_result)
#define JADVOLNI_CHECKED_(...) __attribute__((warn_unused_result, nonnull(__VA_ARGS__)))
#define JADVOLNI_PURE_ __attribute__((warn_unused_result, pure)) /* the same bytes, the same answer */
#endif
#if __has_attribute(access)
#define JADVOLNI_READS_(...) __attribute__((access(read_only, __VA_ARGS__)))
#define JADVOLNI_TEXT_ JADVOLNI_READS_(1, 2)
#define JADVOLNI_WRITES_(...) __attribute__((access(write_only, __VA_ARGS__)))
#elif __has_attribute(diagnose_if)
#define JADVOLNI_TEXT_                                                             \
    __attribute__((diagnose_if(__builtin_object_size(text, 0) < len,               \
                               "the text has fewer bytes than `len`", "warning")))
#endif
#endif
#ifndef JADVOLNI_CHECKED_
#define JADVOLNI_CHECKED_(...)
#define JADVOLNI_PURE_
#endif
#ifndef JADVOLNI_TEXT_
#define JADVOLNI_TEXT_
#endif
#ifndef JADVOLNI_WRITES_
#define JADVOLNI_READS_(...)
#define JADVOLNI_WRITES_(...)
#endif

/* ---- formats ---- */

/*
 * Which texts are numbers. Begin with jadvolni_format_of_radix, and change what differs:
 *
 *     jadvolni_format hexadecimal = jadvolni_format_of_radix(16);
 *     hexadecimal.base_prefix = 'x';
 *
 * DON'T BEGIN WITH {0}: its radix is refused, and once that is set, no digit is required: an empty
 * text, or an empty line of a column, is 0 and no fault.
 *
 * No field requires a prefix or a suffix, or refuses a minus for a signed type.
 *
 * A flag is set by any byte but 0. A separator, prefix or suffix of 0 means none; for the byte 0
 * itself, also set its bit in `nul_is_punctuation`. A format is plain bytes, and needs no freeing. It
 * may hold any bytes: a format that breaks a rule is refused by each call, whatever the text, and
 * jadvolni_format_error checks it in advance.
 */
typedef struct jadvolni_format {
    /* The radix, from 2 to 36. Digits above 9 are letters, in either case. */
    uint8_t mantissa_radix;

    /* A byte that is ignored among the digits: "_" in "1_000". The flags on separators say where it
     * may stand; with none of them, nowhere. It isn't a decimal point: with "," between digits
     * "12,5" is 125, and "12,505" is 12505. For amounts use fixed-point numbers. */
    uint8_t digit_separator;

    /* A byte that may follow a 0 before the digits: with "x", "0x1F" is read like "1F". It doesn't
     * change the radix. */
    uint8_t base_prefix;

    /* A byte that may follow the digits: with "h", "1Fh" is read like "1F". */
    uint8_t base_suffix;

    /* Flag: the prefix is matched exactly. Otherwise a letter matches in either case. */
    uint8_t case_sensitive_base_prefix;

    /* Flag: the suffix is matched exactly. Otherwise a letter matches in either case. */
    uint8_t case_sensitive_base_suffix;

    /* Flag: a digit is required, as with required_mantissa_digits: one of the two is enough. */
    uint8_t required_integer_digits;

    /* Flag: a digit is required. If neither field is set, "" and "+" are 0, but a prefix alone is
     * not. A front still needs a digit, except an amount's. */
    uint8_t required_mantissa_digits;

    /* Flag: a "+" is refused. */
    uint8_t no_positive_mantissa_sign;

    /* Flag: a text without a sign is refused. */
    uint8_t required_mantissa_sign;

    /* Flag: leading zeros are refused, as in "01". After a prefix they aren't, nor in a number that
     * a zero makes octal. */
    uint8_t no_integer_leading_zeros;

    /* Flag: separators may come before the first digit: "_12". */
    uint8_t integer_leading_digit_separator;

    /* Flag: separators may come between two digits: "1_2". */
    uint8_t integer_internal_digit_separator;

    /* Flag: separators may come after the last digit: "12_". */
    uint8_t integer_trailing_digit_separator;

    /* Flag: where one separator may stand, several may: "1__2". */
    uint8_t integer_consecutive_digit_separator;

    /* Flag: separators may come directly after a prefix, as in "0x_1F", like leading ones. No
     * effect without a prefix. */
    uint8_t integer_prefix_digit_separator;

    /* Flag: "0x", "0o" and "0b" choose the radix 16, 8 or 2 for the digits after them; so do "0X",
     * "0O" and "0B", unless the prefix is matched exactly. The radix of the format must be 10; it
     * is used for a text without such a prefix. */
    uint8_t literal_prefixes;

    /* Flag: a number is octal if its first byte, after any sign, is 0: "0777" is 511, and "08" ends
     * after its zero. "1007" and "_017" are decimal, and a prefix takes precedence. The radix of
     * the format must be 10. */
    uint8_t literal_octal_zero;

    /* Bits: which of separator, prefix and suffix is the byte 0 itself; its own field is then 0.
     * JADVOLNI_NUL_IS_SEPARATOR, JADVOLNI_NUL_IS_PREFIX and JADVOLNI_NUL_IS_SUFFIX; other bits are 0.
     * If the field isn't 0, its bit is ignored. */
    uint8_t nul_is_punctuation;

    /* All 0. They are for fields of later versions: if a program sets such a field, and runs with this
     * version of the library, it gets JADVOLNI_UNKNOWN_FIELD. */
    uint8_t reserved[13];
} jadvolni_format;

/* The bits of `nul_is_punctuation`. */
#define JADVOLNI_NUL_IS_SEPARATOR 1
#define JADVOLNI_NUL_IS_PREFIX 2
#define JADVOLNI_NUL_IS_SUFFIX 4

/* Decimal digits after an optional sign. A digit is required. */
#define JADVOLNI_FORMAT_STANDARD \
    {10, 0, 0, 0, 0, 0, 0, 1, 0, 0, 0, 0, 0, 0, 0, 0, 0, 0, 0, {0}}

/* The standard format with another radix, from 2 to 36. With any other, each call refuses the format,
 * with JADVOLNI_INVALID_MANTISSA_RADIX; but as the integer part of fixed-point numbers it has the
 * radix 10. */
static inline jadvolni_format jadvolni_format_of_radix(int radix)
{
    jadvolni_format format = JADVOLNI_FORMAT_STANDARD;
    /* (the mask shows that it fits a byte: C++ may warn of a cast) */
    format.mantissa_radix = radix >= 2 && radix <= 36 ? radix & 63 : 0;
    return format;
}

/* The format of this project's tokenizer, and of no language: "1_000", "0xFF", "0o17", "0b1". "0777",
 * which is 511 in C, is 777 unless `literal_octal_zero` is set, and a sign is allowed, as in "+1". */
#define JADVOLNI_FORMAT_LITERAL \
    {10, 95, 0, 0, 0, 0, 0, 1, 0, 0, 0, 0, 1, 0, 1, 0, 1, 0, 0, {0}}

/* The formats of languages and of data, by make docs from tools/languages.txt. */

/* C, up to C17. */
#define JADVOLNI_FORMAT_C \
    {10, 0, 0, 0, 0, 0, 0, 1, 1, 0, 0, 0, 0, 0, 0, 0, 1, 1, 0, {0}}

/* C, decimal constants. */
#define JADVOLNI_FORMAT_C_DECIMAL \
    {10, 0, 0, 0, 0, 0, 0, 1, 1, 0, 1, 0, 0, 0, 0, 0, 0, 0, 0, {0}}

/* C, octal constants. */
#define JADVOLNI_FORMAT_C_OCTAL \
    {8, 0, 0, 0, 0, 0, 0, 1, 1, 0, 0, 0, 0, 0, 0, 0, 0, 0, 0, {0}}

/* C, hexadecimal constants. */
#define JADVOLNI_FORMAT_C_HEXADECIMAL \
    {16, 0, 120, 0, 0, 0, 0, 1, 1, 0, 0, 0, 0, 0, 0, 0, 0, 0, 0, {0}}

/* C23. */
#define JADVOLNI_FORMAT_C23 \
    {10, 39, 0, 0, 0, 0, 0, 1, 1, 0, 0, 0, 1, 0, 0, 0, 1, 1, 0, {0}}

/* C++14 and later. */
#define JADVOLNI_FORMAT_CPP14 \
    {10, 39, 0, 0, 0, 0, 0, 1, 1, 0, 0, 0, 1, 0, 0, 0, 1, 1, 0, {0}}

/* C#. */
#define JADVOLNI_FORMAT_CSHARP \
    {10, 95, 0, 0, 0, 0, 0, 1, 1, 0, 0, 0, 1, 0, 1, 1, 1, 0, 0, {0}}

/* Java. */
#define JADVOLNI_FORMAT_JAVA \
    {10, 95, 0, 108, 0, 0, 0, 1, 1, 0, 0, 0, 1, 0, 1, 0, 1, 1, 0, {0}}

/* Kotlin. */
#define JADVOLNI_FORMAT_KOTLIN \
    {10, 95, 0, 76, 0, 1, 0, 1, 1, 0, 1, 0, 1, 0, 1, 0, 1, 0, 0, {0}}

/* Rust. */
#define JADVOLNI_FORMAT_RUST \
    {10, 95, 0, 0, 1, 0, 0, 1, 1, 0, 0, 0, 1, 1, 1, 1, 1, 0, 0, {0}}

/* Go. */
#define JADVOLNI_FORMAT_GO \
    {10, 95, 0, 0, 0, 0, 0, 1, 1, 0, 0, 0, 1, 0, 0, 1, 1, 1, 0, {0}}

/* Swift. */
#define JADVOLNI_FORMAT_SWIFT \
    {10, 95, 0, 0, 1, 0, 0, 1, 1, 0, 0, 0, 1, 1, 1, 0, 1, 0, 0, {0}}

/* Ada, decimal literals. */
#define JADVOLNI_FORMAT_ADA \
    {10, 95, 0, 0, 0, 0, 0, 1, 1, 0, 0, 0, 1, 0, 0, 0, 0, 0, 0, {0}}

/* VHDL, decimal literals. */
#define JADVOLNI_FORMAT_VHDL \
    {10, 95, 0, 0, 0, 0, 0, 1, 1, 0, 0, 0, 1, 0, 0, 0, 0, 0, 0, {0}}

/* assemblers, hexadecimal numbers with an `h`. */
#define JADVOLNI_FORMAT_ASSEMBLER_HEXADECIMAL \
    {16, 0, 0, 104, 0, 0, 0, 1, 1, 0, 0, 0, 0, 0, 0, 0, 0, 0, 0, {0}}

/* Python 3. */
#define JADVOLNI_FORMAT_PYTHON \
    {10, 95, 0, 0, 0, 0, 0, 1, 1, 0, 1, 0, 1, 0, 0, 1, 1, 0, 0, {0}}

/* Ruby. */
#define JADVOLNI_FORMAT_RUBY \
    {10, 95, 0, 0, 0, 0, 0, 1, 0, 0, 0, 0, 1, 0, 0, 0, 1, 1, 0, {0}}

/* JavaScript, in strict mode and in modules. */
#define JADVOLNI_FORMAT_JAVASCRIPT \
    {10, 95, 0, 110, 0, 1, 0, 1, 1, 0, 1, 0, 1, 0, 0, 0, 1, 0, 0, {0}}

/* Julia. */
#define JADVOLNI_FORMAT_JULIA \
    {10, 95, 0, 0, 1, 0, 0, 1, 1, 0, 0, 0, 1, 0, 0, 0, 1, 0, 0, {0}}

/* Haskell, with NumericUnderscores and BinaryLiterals. */
#define JADVOLNI_FORMAT_HASKELL \
    {10, 95, 0, 0, 0, 0, 0, 1, 1, 0, 0, 0, 1, 0, 1, 1, 1, 0, 0, {0}}

/* OCaml. */
#define JADVOLNI_FORMAT_OCAML \
    {10, 95, 0, 0, 0, 0, 0, 1, 1, 0, 0, 0, 1, 1, 1, 0, 1, 0, 0, {0}}

/* JSON. */
#define JADVOLNI_FORMAT_JSON \
    {10, 0, 0, 0, 0, 0, 1, 1, 1, 0, 1, 0, 0, 0, 0, 0, 0, 0, 0, {0}}

/* JSON5. */
#define JADVOLNI_FORMAT_JSON5 \
    {10, 0, 0, 0, 0, 0, 0, 1, 0, 0, 1, 0, 0, 0, 0, 0, 1, 0, 0, {0}}

/* TOML. */
#define JADVOLNI_FORMAT_TOML \
    {10, 95, 0, 0, 1, 0, 0, 1, 0, 0, 1, 0, 1, 0, 0, 0, 1, 0, 0, {0}}

/* YAML 1.2, core schema. */
#define JADVOLNI_FORMAT_YAML \
    {10, 0, 0, 0, 1, 0, 0, 1, 0, 0, 0, 0, 0, 0, 0, 0, 1, 0, 0, {0}}

/* SQL, up to SQL:2016. */
#define JADVOLNI_FORMAT_SQL \
    {10, 0, 0, 0, 0, 0, 0, 1, 0, 0, 0, 0, 0, 0, 0, 0, 0, 0, 0, {0}}

/* SQL:2023. */
#define JADVOLNI_FORMAT_SQL_2023 \
    {10, 95, 0, 0, 0, 0, 0, 1, 0, 0, 0, 0, 1, 0, 0, 1, 1, 0, 0, {0}}

/* Returns JADVOLNI_UNKNOWN_FIELD if a reserved byte or bit isn't 0; otherwise the status of the first rule
 * that the format breaks, or JADVOLNI_OK. */
uint32_t jadvolni_format_error(const jadvolni_format *format) JADVOLNI_PURE_ JADVOLNI_CHECKED_(1);

/* ---- numbers of 128 bits ---- */

/* A u128: high * 2^64 + low. */
typedef struct jadvolni_uint128 {
    uint64_t low;
    uint64_t high;
} jadvolni_uint128;

/* An i128: high * 2^64 + low. For -1, high is -1 and low is UINT64_MAX. */
typedef struct jadvolni_int128 {
    uint64_t low;
    int64_t high;
} jadvolni_int128;

/* ---- the calls ---- */

#ifdef __clang__
#pragma clang diagnostic push
#pragma clang diagnostic ignored "-Wgcc-compat" /* gcc has no diagnose_if */
#endif

/* A call, and the same with a format. */
#define JADVOLNI_CALL_(name, type)                                                    \
    jadvolni_result jadvolni_parse_##name(const char *text, size_t len, type *value)  \
        JADVOLNI_CHECKED_(3) JADVOLNI_TEXT_ JADVOLNI_WRITES_(3);                      \
    jadvolni_result jadvolni_parse_##name##_with_format(                              \
        const char *text, size_t len, const jadvolni_format *format, type *value)     \
        JADVOLNI_CHECKED_(3, 4) JADVOLNI_TEXT_ JADVOLNI_WRITES_(4)

/* The six calls of the type `name`, which is a `type` in C. */
#define JADVOLNI_CALLS_(name, type)       \
    JADVOLNI_CALL_(name, type);           \
    JADVOLNI_CALL_(name##_front, type);   \
    JADVOLNI_CALL_(name##_partial, type)

JADVOLNI_CALLS_(u8, uint8_t);
JADVOLNI_CALLS_(u16, uint16_t);
JADVOLNI_CALLS_(u32, uint32_t);
JADVOLNI_CALLS_(u64, uint64_t);
JADVOLNI_CALLS_(u128, jadvolni_uint128);
JADVOLNI_CALLS_(usize, size_t);
JADVOLNI_CALLS_(i8, int8_t);
JADVOLNI_CALLS_(i16, int16_t);
JADVOLNI_CALLS_(i32, int32_t);
JADVOLNI_CALLS_(i64, int64_t);
JADVOLNI_CALLS_(i128, jadvolni_int128);
JADVOLNI_CALLS_(isize, ptrdiff_t);

#undef JADVOLNI_CALLS_
#undef JADVOLNI_CALL_

#if !defined __cplusplus && defined __STDC_VERSION__ && __STDC_VERSION__ >= 201112L
/* Called if `value` of jadvolni_parse points to no integer: gcc and clang then say what it must be. */
#ifdef __has_attribute
#if __has_attribute(error)
__attribute__((error("jadvolni_parse: `value` has to point to an integer of 8, 16, 32 or 64 bits, a "
                     "jadvolni_uint128 or a jadvolni_int128, and to no char, bool, __int128 or constant")))
#endif
#endif
jadvolni_result jadvolni_parse_has_no_integer_to_write_to_(const char *text, size_t len, const void *value);

/* A type with the 64 bits of another that isn't the same, such as `long long` where int64_t is `long`. */
#define JADVOLNI_SAME_BITS_(name, type, kept, call)                                   \
    static inline JADVOLNI_CHECKED_(3) jadvolni_result jadvolni_parse_##name##_(      \
        const char *text, size_t len, type *value)                                    \
    {                                                                                 \
        kept number;                                                                  \
        jadvolni_result answer = call(text, len, &number);                            \
        if (answer.status == JADVOLNI_OK) *value = number;                            \
        return answer;                                                                \
    }
JADVOLNI_SAME_BITS_(llong, long long, int64_t, jadvolni_parse_i64)
JADVOLNI_SAME_BITS_(ullong, unsigned long long, uint64_t, jadvolni_parse_u64)
#undef JADVOLNI_SAME_BITS_

/* The whole text as a number of the type that `value` points to. A size_t and a ptrdiff_t are read as
 * the uint64_t and int64_t that they are, and so are both kinds of `long long`. */
#define jadvolni_parse(text, len, value)         \
    _Generic((value),                            \
        uint8_t *: jadvolni_parse_u8,            \
        uint16_t *: jadvolni_parse_u16,          \
        uint32_t *: jadvolni_parse_u32,          \
        uint64_t *: jadvolni_parse_u64,          \
        jadvolni_uint128 *: jadvolni_parse_u128, \
        int8_t *: jadvolni_parse_i8,             \
        int16_t *: jadvolni_parse_i16,           \
        int32_t *: jadvolni_parse_i32,           \
        int64_t *: jadvolni_parse_i64,           \
        jadvolni_int128 *: jadvolni_parse_i128,  \
        default: _Generic((value),               \
            long long *: jadvolni_parse_llong_,  \
            unsigned long long *:                \
                jadvolni_parse_ullong_,          \
            default:                             \
                jadvolni_parse_has_no_integer_to_write_to_))(text, len, value)
#endif

/* ---- literals ---- */

/*
 * Reads the integer literal at the beginning of a text, under the format of its language, with its
 * suffix:
 *
 *     jadvolni_format rust = JADVOLNI_FORMAT_RUST;
 *     jadvolni_uint128 value;
 *     size_t suffix;
 *     jadvolni_result r = jadvolni_parse_literal("1_000i64;", 9, &rust, &value, &suffix);
 *
 * gives 1000, JADVOLNI_OK at 8, and 5 as the place where its suffix, "i64", begins. The suffix is all
 * ASCII letters, digits 0 to 9 and "_" that follow the number. Without any, `*suffix` equals `r.place`.
 * A letter that is a digit of the number isn't part of the suffix: "0xFFu" has the suffix "u", and
 * "0xFFf" none.
 *
 * THE CALLER DECIDES WHICH SUFFIXES ARE VALID; docs/FORMATS.md lists those of each language. "1e5" is 1
 * with the suffix "e5", and "0b102" is 0b10, that is 2, with the suffix "2". The caller also decides
 * what may follow a literal: in "1.5" a point follows the 1.
 *
 * The format's own `base_suffix`, as the L of Java and Kotlin or the n of JavaScript, is part of the
 * number, and not of the suffix. Clear the field to get it as the suffix.
 *
 * The number and the faults are those of jadvolni_parse_u128_front_with_format: so it has no minus
 * under any format, and a plus if the format allows one. At a fault `*value` and `*suffix` are
 * unchanged. `suffix` is not NULL, and neither `*suffix` nor `*value` overlaps the text, the format or
 * the other.
 */
jadvolni_result jadvolni_parse_literal(const char *text, size_t len, const jadvolni_format *format,
                                       jadvolni_uint128 *value, size_t *suffix)
    JADVOLNI_CHECKED_(3, 4, 5) JADVOLNI_TEXT_ JADVOLNI_WRITES_(4) JADVOLNI_WRITES_(5);

/* The types that a suffix may name. */
typedef enum jadvolni_type {
    JADVOLNI_TYPE_U8 = 1,
    JADVOLNI_TYPE_U16 = 2,
    JADVOLNI_TYPE_U32 = 3,
    JADVOLNI_TYPE_U64 = 4,
    JADVOLNI_TYPE_U128 = 5,
    JADVOLNI_TYPE_USIZE = 6,
    JADVOLNI_TYPE_I8 = 7,
    JADVOLNI_TYPE_I16 = 8,
    JADVOLNI_TYPE_I32 = 9,
    JADVOLNI_TYPE_I64 = 10,
    JADVOLNI_TYPE_I128 = 11,
    JADVOLNI_TYPE_ISIZE = 12
} jadvolni_type;

/* An entry of a table of suffixes. JADVOLNI_SUFFIX makes one from a string constant. */
typedef struct jadvolni_suffix {
    /* The suffix, byte for byte: a language that accepts "u" and "U" has an entry for each. The empty
     * suffix is for literals without one, and its `text` may be NULL. */
    const char *text;
    size_t len;

    /* The jadvolni_type that it names. */
    uint32_t type;

    /* 0: it is for a field of later versions. */
    uint32_t reserved;
} jadvolni_suffix;

#define JADVOLNI_SUFFIX(text, type) {"" text, sizeof("" text) - 1, type, 0}

/*
 * Reads the integer literal at the beginning of a text, as jadvolni_parse_literal does, and checks it
 * against the type that its suffix names:
 *
 *     static const jadvolni_suffix suffixes[] = {
 *         JADVOLNI_SUFFIX("", JADVOLNI_TYPE_I32),
 *         JADVOLNI_SUFFIX("u8", JADVOLNI_TYPE_U8),
 *         JADVOLNI_SUFFIX("i64", JADVOLNI_TYPE_I64),
 *     };
 *     size_t entry;
 *     jadvolni_result r = jadvolni_parse_typed_literal("1_000i64;", 9, &rust, suffixes, 3, &value,
 *                                                      &suffix, &entry);
 *
 * gives 1000, JADVOLNI_OK at 8, 5 as the place where the suffix begins, and 2 as the index of its entry,
 * the first if several are equal. It returns the first of these faults that applies:
 *
 *     JADVOLNI_UNKNOWN_FIELD, JADVOLNI_INVALID_SUFFIX_TABLE  of the format and of the table, whatever
 *                              the text.
 *     those of jadvolni_parse_literal, except JADVOLNI_OVERFLOW.
 *     JADVOLNI_INVALID_DIGIT   at a digit 0 to 9 directly after the number: 4 in "0b102".
 *     JADVOLNI_UNKNOWN_SUFFIX  where the suffix begins: 2 in "12abc", and 1 in "1e5".
 *     JADVOLNI_OVERFLOW        at the digit at which the number leaves its type: 2 in "300u8".
 *
 * The format's own `base_suffix` is part of the number, and never looked up: under
 * JADVOLNI_FORMAT_JAVA "1L" has the entry of "". Clear the field to look it up.
 *
 * If more bytes may come, take no result as final while the suffix, or separators after the number,
 * reach the text's end: "300u" is JADVOLNI_UNKNOWN_SUFFIX at 3, and may continue as "300u16".
 *
 * A LITERAL HAS NO MINUS: "-128i8" is JADVOLNI_EMPTY at 0, and "128i8" JADVOLNI_OVERFLOW at 2. If a
 * minus before a literal widens its range, let the entry name the unsigned type, and check the range
 * where the sign is known.
 *
 * At a fault `*value`, `*suffix` and `*entry` are unchanged. `suffixes` points to `suffix_count`
 * entries, and may be NULL if that is 0. `value`, `suffix` and `entry` are not NULL, and what they point
 * to overlaps neither the text, the format, the table nor each other.
 */
jadvolni_result jadvolni_parse_typed_literal(const char *text, size_t len, const jadvolni_format *format,
                                             const jadvolni_suffix *suffixes, size_t suffix_count,
                                             jadvolni_uint128 *value, size_t *suffix, size_t *entry)
    JADVOLNI_CHECKED_(3, 6, 7, 8) JADVOLNI_TEXT_ JADVOLNI_READS_(4, 5) JADVOLNI_WRITES_(6)
    JADVOLNI_WRITES_(7) JADVOLNI_WRITES_(8);

/* ---- fixed-point numbers ---- */

/*
 * How fixed-point numbers are written, such as amounts of money: an integer part, and decimal places
 * after a point. Begin with {0}, and set what differs:
 *
 *     jadvolni_fixed cents = {.places = 2, .takes_fewer = 1};
 *     jadvolni_fixed grouped = {.places = 2, .point = ','};
 *     grouped.integer.digit_separator = '.';
 *     grouped.integer.integer_internal_digit_separator = 1;
 *
 * The first reads "12.50", "12.5" and "12", and the second "-1.234,50". A description that breaks a
 * rule is refused by each call, whatever the text, and jadvolni_fixed_error checks it in advance.
 */
typedef struct jadvolni_fixed {
    /* What the integer part looks like: its sign, separators and leading zeros. If its radix is 0, it is
     * taken as 10, and a digit is required; the other fields count as they are set. Any other radix
     * than 10 is refused, and so are prefixes, suffixes, literal prefixes and octal zeros. */
    jadvolni_format integer;

    /* The byte before the decimal places; 0 means '.'. It isn't a digit, a sign or the separator. */
    uint8_t point;

    /* The number of decimal places, at most 38. The result is in units of the last place: with two
     * places "12.50" is 1250. With 0 places no point is read. */
    uint8_t places;

    /* Flag: fewer digits than `places` are accepted, as if zeros followed; with none, the point is left
     * out too. A point without a digit after it is a fault in a whole text, and `_front` stops before it. */
    uint8_t takes_fewer;

    /* All 0: they are for fields of later versions. */
    uint8_t reserved[13];
} jadvolni_fixed;

/* Returns JADVOLNI_UNKNOWN_FIELD if a reserved byte or bit isn't 0; otherwise the status of the first rule
 * that the description breaks, or JADVOLNI_OK. */
uint32_t jadvolni_fixed_error(const jadvolni_fixed *fixed) JADVOLNI_PURE_ JADVOLNI_CHECKED_(1);

/*
 * Reads a fixed-point number, which is the whole text or, with `_front`, stands at its beginning, in
 * units of the last place. The number is exact, or there is a fault; nothing is rounded: "12.505" with
 * two places is JADVOLNI_INVALID_DIGIT at 5, with `_front` too. "-0.05" is -5.
 *
 *     int64_t value;
 *     jadvolni_result r = jadvolni_parse_i64_fixed("-0.05", 5, &cents, &value);
 *
 *     JADVOLNI_OVERFLOW, JADVOLNI_UNDERFLOW  at the digit at which the number leaves the type; if only
 *                             zeros that aren't written make it leave the type, where reading stops
 *                             (if a digit is missing there too, the fault is JADVOLNI_EMPTY).
 *     JADVOLNI_INVALID_DIGIT  at the digit after the last place, or, if `places` is 0, at a point before a
 *                             digit; without `_front` also at any other byte that isn't allowed, such as
 *                             the byte after a point that no digit follows.
 *     JADVOLNI_EMPTY          where a digit is missing: at the end of "12.", and, if all places are
 *                             required, at the end of "12.5"; with `_front` also before another byte.
 *
 * A number is written back by its parts: 1250 is "12.50" again, and -5 is "-0.05".
 *
 *     uint64_t units = value < 0 ? 0 - (uint64_t)value : (uint64_t)value;
 *     snprintf(shown, sizeof shown, "%s%" PRIu64 ".%02" PRIu64, value < 0 ? "-" : "", units / 100,
 *              units % 100);
 *
 * If fewer places are accepted, `_front` reads "12. And" as 1200, and stops at 2. So if more bytes may
 * come, a result before a point or separators that end the text isn't final either: "12." stops at 2, and
 * may continue as "12.5".
 *
 * ".5" is JADVOLNI_INVALID_DIGIT at 0, with `_front` JADVOLNI_EMPTY at 0. To read it, set
 * `integer.mantissa_radix` to 10 and leave `integer.required_mantissa_digits` 0; then `_front` of "x" is 0
 * at 0. Groups may have any size: with "," between digits, "1,2,3.50" is 12350. Everything else is as the
 * head of this file says.
 */
#define JADVOLNI_FIXED_(name, type)                                                            \
    jadvolni_result jadvolni_parse_##name##_fixed(const char *text, size_t len,                \
                                                  const jadvolni_fixed *fixed, type *value)    \
        JADVOLNI_CHECKED_(3, 4) JADVOLNI_TEXT_ JADVOLNI_WRITES_(4);                            \
    jadvolni_result jadvolni_parse_##name##_fixed_front(                                       \
        const char *text, size_t len, const jadvolni_fixed *fixed, type *value)                \
        JADVOLNI_CHECKED_(3, 4) JADVOLNI_TEXT_ JADVOLNI_WRITES_(4)

JADVOLNI_FIXED_(u8, uint8_t);
JADVOLNI_FIXED_(u16, uint16_t);
JADVOLNI_FIXED_(u32, uint32_t);
JADVOLNI_FIXED_(u64, uint64_t);
JADVOLNI_FIXED_(u128, jadvolni_uint128);
JADVOLNI_FIXED_(usize, size_t);
JADVOLNI_FIXED_(i8, int8_t);
JADVOLNI_FIXED_(i16, int16_t);
JADVOLNI_FIXED_(i32, int32_t);
JADVOLNI_FIXED_(i64, int64_t);
JADVOLNI_FIXED_(i128, jadvolni_int128);
JADVOLNI_FIXED_(isize, ptrdiff_t);

#undef JADVOLNI_FIXED_

/* ---- lines ---- */

/* Line and column of a place, both from 0. */
typedef struct jadvolni_position {
    size_t line;
    size_t column;
} jadvolni_position;

/* Where a place is in a text: the number of line feeds before it, and the number of bytes after the last of
 * them. Both count from 0, where editors count from 1. A line feed belongs to the line that it ends. A
 * place past the end of the text counts as its end. */
jadvolni_position jadvolni_line_column(const char *text, size_t len, size_t place)
    JADVOLNI_PURE_ JADVOLNI_TEXT_;

/* ---- columns ---- */

/*
 * Reads the numbers of a text's fields into an array. A field is the bytes up to the separator, which is
 * one byte. The last field needs no separator after it, and a separator at the end starts no further
 * field: so the lines of a file are its fields between line feeds. The empty text has no fields.
 *
 *     int64_t values[1000];
 *     size_t count;
 *     jadvolni_format format = JADVOLNI_FORMAT_STANDARD;
 *     jadvolni_result r = jadvolni_parse_i64_column(text, len, '\n', &format, values, 1000, &count);
 *     if (r.status != JADVOLNI_OK)
 *         fprintf(stderr, "line %zu, byte %zu: %s\n", count + 1, r.place,
 *                 jadvolni_status_name(r.status));
 *
 *     r.status  JADVOLNI_OK, or what is wrong with the first field that isn't a number, or with the
 *               format, which is checked first.
 *     r.place   At JADVOLNI_OK, where reading stopped: `len`, or the start of the first field that
 *               had no room in the array. A call on the text from there on continues exactly there,
 *               and counts its places from there. At a fault of a field, the place of the wrong or
 *               missing byte, from the start of the text; at a fault of the format, 0.
 *     count     How many numbers were read. At a fault of a field that is the field's index, from 0.
 *               Every call writes it.
 *     values    The numbers, in order. From `values[count]` on the array is unchanged, even after a
 *               fault; the numbers before it are valid.
 *
 * So "12,7,x" with the separator ',' gives 12 and 7, count 2, and JADVOLNI_INVALID_DIGIT at 5. With
 * room for one it gives 12, count 1, and JADVOLNI_OK at 3: what has no room isn't looked at.
 *
 * Any byte may be the separator, even one that the format gives a meaning: the text is split first, and
 * then each field is read as a whole text. "2026-11-23" as u16 between '-' is 2026, 11 and 23.
 * A table isn't one column: between ',' the text "1,2\n3,4" has the field "2\n3". Pass one line at a
 * time.
 *
 * CARRIAGE RETURNS, BLANKS, MISSING NUMBERS AND AMOUNTS need a table. A table of one column reads lines
 * with them: if its separator is '\n', each line is one cell:
 *
 *     jadvolni_table lines = {.separator = '\n', .allows_returns = 1, .allows_blanks = 1};
 *     jadvolni_table_column cents = {.places = 2, .i64 = {values, 1000}, .present = {bits, 125}};
 *     jadvolni_table_result r = jadvolni_parse_table(text, len, true, &lines, 1000, &cents, 1);
 *
 * A FILE IN BLOCKS. The end of a text ends its last field, so a file that is passed block by block
 * GIVES WRONG NUMBERS, WITH JADVOLNI_OK: "12" and "34\n" are 12 and 34, where the file has 1234.
 * Pass whole lines, and keep what follows the last line feed for the next block:
 *
 *     size_t kept = 0, got;
 *     while ((got = fread(block + kept, 1, size - kept, file)) > 0) {
 *         size_t whole = jadvolni_field_start(block, kept + got, '\n');
 *         read_lines(block, whole);
 *         kept += got - whole;
 *         memmove(block, block + whole, kept);
 *     }
 *     if (ferror(file) || kept == size) return 0; // or a line is longer than the block
 *     read_lines(block, kept);                    // a last line without a line feed
 *
 * `read_lines` stands for a loop of jadvolni_parse_i64_column until it has read all of its text. If the
 * array has room for a whole block, jadvolni_parse_i64_column_part does both steps at once.
 *
 * In addition to what the head of this file requires, `values` points to `capacity` writable numbers,
 * and may be NULL if `capacity` is 0; `count` is not NULL. The numbers and `*count` overlap neither the
 * text, the format nor each other.
 */
#define JADVOLNI_COLUMN_(name, type)                                                      \
    jadvolni_result jadvolni_parse_##name##_column(                                       \
        const char *text, size_t len, uint8_t separator, const jadvolni_format *format,   \
        type *values, size_t capacity, size_t *count)                                     \
        JADVOLNI_CHECKED_(4, 7) JADVOLNI_TEXT_ JADVOLNI_WRITES_(5, 6) JADVOLNI_WRITES_(7)

JADVOLNI_COLUMN_(u8, uint8_t);
JADVOLNI_COLUMN_(u16, uint16_t);
JADVOLNI_COLUMN_(u32, uint32_t);
JADVOLNI_COLUMN_(u64, uint64_t);
JADVOLNI_COLUMN_(i8, int8_t);
JADVOLNI_COLUMN_(i16, int16_t);
JADVOLNI_COLUMN_(i32, int32_t);
JADVOLNI_COLUMN_(i64, int64_t);

#undef JADVOLNI_COLUMN_

/* Returns where the last field of the first `len` bytes starts: after their last separator, or at 0. With a
 * fault's place as `len` that is where the wrong field starts. Of a block that isn't the file's last, it is
 * how many bytes are whole fields. */
size_t jadvolni_field_start(const char *text, size_t len, uint8_t separator)
    JADVOLNI_PURE_ JADVOLNI_TEXT_;

/* ---- tables ---- */

/* How a table is written. Begin with {0}, and set what differs. */
typedef struct jadvolni_table {
    /* The byte between two cells of a row. Whatever it is, a line feed ends a row, and a carriage return
     * that belongs to this end doesn't separate cells. No row ends with a return alone. */
    uint8_t separator;

    /* Flag: the line feed that ends a row has a carriage return before it. Any other carriage return is a
     * byte of its cell, even at the end of the text, and so a fault in a number; without this flag each
     * is. For rows that end either way there is `allows_returns`. */
    uint8_t has_returns;

    /* Flag: a cell may be enclosed in quotes, '"', and may then contain separators and line feeds. Its
     * width, if it has one, includes the quotes. Don't combine this with a quote as the separator: that
     * still separates cells, but after an odd number of them in a row a line feed doesn't end it. */
    uint8_t has_quotes;

    /* Flag: spaces and tabs may surround a number, or what stands for a missing one. If that is quoted,
     * they stand within the quotes: with a blank outside them a quote is misplaced. In a cell of blanks
     * alone the digit is missing after them. */
    uint8_t allows_blanks;

    /* Flag: a row without a byte before its end is skipped, and has no number, even if an empty cell is a
     * missing one. With `has_returns` it may end with a line feed alone. A row of blanks isn't empty.
     * Otherwise an empty row has one empty cell, or with widths those of width 0 before all others. */
    uint8_t skips_empty_rows;

    /* Flag: a row is a record: as many bytes as the sum of the widths, but at least one. Nothing
     * separates rows, and a line feed is a byte like any other: one at the end of a file belongs to a
     * further record. This needs widths. */
    uint8_t is_records;

    /* Flag: the line feed that ends a row may have a carriage return before it, which isn't a byte of the
     * row: so each row may end either way. Any other carriage return is a byte of its cell, even at the
     * end of the text. No effect if `has_returns` is set. */
    uint8_t allows_returns;

    /* All 0: they are for fields of later versions. */
    uint8_t reserved[9];

    /* What stands for a missing number or text, byte for byte, in columns that have bits. It is all that
     * a cell holds: what stands within its quotes, if it has them, in a text with doubled ones as they
     * are; and for a number, without its blanks if they are allowed. With no bytes, an empty cell stands
     * for one, and so does one of two quotes, "", if the table has quotes; and `missing` may be NULL. */
    const char *missing;
    size_t missing_len;

    /* How many bytes the cell of each column has; there are then no separators. Without widths, cells
     * have separators between them. */
    const size_t *widths;
    size_t width_count;
} jadvolni_table;

/* An array of a column, and how many numbers it has room for. */
#define JADVOLNI_ARRAY_(name, type) \
    struct {                        \
        type *numbers;              \
        size_t capacity;            \
    } name

/* Where the text of a cell is: within its quotes if it has them, and including its blanks. */
typedef struct jadvolni_cell_text {
    size_t start; /* the place of its first byte, from the start of the text that was read */
    size_t size;  /* how many bytes it has */

    /* 1 if the text contains doubled quotes, each of which stands for one; otherwise 0. */
    uint8_t has_doubled_quotes;
} jadvolni_cell_text;

/*
 * A column of a table: what its cells look like, and the array for its numbers or for the places of its
 * texts. SET ONE OF THE ARRAYS: it chooses the type. If several have room, the first of them is used.
 * A column with none, such as {0}, isn't read: its cells may hold any bytes but what ends a cell; if the
 * table has quotes, these must be in place, as in a text. If the call's `capacity` isn't 0, the radix of
 * its format must then be 0, as in {0}: otherwise the status is JADVOLNI_INVALID_TABLE.
 *
 *     jadvolni_table_column amount = {.places = 2, .point = ',', .i64 = {cents, 1000}};
 *     amount.format.digit_separator = '.';
 *     amount.format.integer_internal_digit_separator = 1;
 *     jadvolni_table_column purpose = {.text = {texts, 1000}};
 *
 * The first reads "-1.234,50" as -123450, and the second stores where each text is.
 */
typedef struct jadvolni_table_column {
    /* What a number looks like, or its integer part if it has decimal places. If no array of numbers has
     * room, only its radix is looked at, and for texts nothing. */
    jadvolni_format format;

    /* How fixed-point numbers are written, as in jadvolni_fixed. The format is their integer part: so if
     * its radix is 0, it is taken as 10. If `places` is 0, cells are integers, and the other two are
     * ignored. */
    uint8_t point;
    uint8_t places;
    uint8_t takes_fewer;

    /* All 0, if an array of numbers has room: they are for fields of later versions. */
    uint8_t reserved[13];

    JADVOLNI_ARRAY_(i64, int64_t);
    JADVOLNI_ARRAY_(u64, uint64_t);
    JADVOLNI_ARRAY_(i32, int32_t);
    JADVOLNI_ARRAY_(u32, uint32_t);
    JADVOLNI_ARRAY_(i16, int16_t);
    JADVOLNI_ARRAY_(u16, uint16_t);
    JADVOLNI_ARRAY_(i8, int8_t);
    JADVOLNI_ARRAY_(u8, uint8_t);

    /* Where texts are. A text may contain any bytes but what ends its cell. If the table has quotes, one
     * with a quote must be enclosed in them, and its own are doubled: "a ""b""" is the text a ""b"", which
     * jadvolni_fold_quotes turns into a "b". Blanks are bytes like any other, even if they are allowed. */
    struct {
        jadvolni_cell_text *texts;
        size_t capacity;
    } text;

    /* The bits that say whether a row has a number or a text: for row k, bit k & 7 of byte k >> 3, where bit
     * 0 is the lowest. It is 1 if there is one, and 0 if it is missing: then the array has 0, or a text of
     * no bytes at place 0. Without these bytes none may be missing. Those of a column that isn't read
     * are unchanged. */
    struct {
        uint8_t *bytes;
        size_t size;
    } present;
} jadvolni_table_column;

#undef JADVOLNI_ARRAY_

/* What the call on a table returns. */
typedef struct jadvolni_table_result {
    uint32_t status; /* a jadvolni_status */
    size_t column;
    size_t rows;
    size_t place;
} jadvolni_table_result;

/*
 * Reads the rows of a text, each column into an array of its own. A row is a line. Its cells have
 * separators between them: it has one cell more than separators, and needs one for each column. Instead
 * of separators, cells may have widths, and rows may then be records.
 *
 *     uint16_t days[1000];
 *     int64_t cents[1000];
 *     jadvolni_table ledger = {.separator = ';', .has_returns = 1};
 *     jadvolni_table_column columns[] = {
 *         {.format = JADVOLNI_FORMAT_STANDARD, .u16 = {days, 1000}},
 *         {.format = {0}}, // what it was paid for, which isn't read
 *         {.format = JADVOLNI_FORMAT_STANDARD, .i64 = {cents, 1000}},
 *     };
 *     jadvolni_table_result r = jadvolni_parse_table(text, len, true, &ledger, 1000, columns, 3);
 *     if (r.status != JADVOLNI_OK)
 *         fprintf(stderr, "row %zu, column %zu, byte %zu: %s\n", r.rows + 1, r.column + 1, r.place,
 *                 jadvolni_table_text(r, &ledger, 1000, columns, 3));
 *
 *     r.status  JADVOLNI_OK, or the first fault in reading order: row by row, and in each row first its
 *               cells, then their number, then the carriage return. A cell's quotes come before its
 *               number: in 1x" the quote is misplaced. The table and its columns are checked before the
 *               text: of each column first the room, then the format.
 *     r.column  At a fault, the column, from 0. If a row has too few cells, how many it has; if it has
 *               too many or lacks its carriage return, how many columns there are. Otherwise 0.
 *     r.rows    How many rows were read; so at a fault of the text, the number of its row, from 0.
 *     r.place   At JADVOLNI_OK, where reading stopped: the end of the text, or the start of the first
 *               row after `capacity` rows. A call on the text from there on continues exactly there. At
 *               a fault of the text, its place, from the start of the text; otherwise 0.
 *
 * For each cell, the number, or the place of the text, is stored in the array of its column at the index
 * of its row. After a fault, those of all cells before the wrong one are there, even in its row, and the
 * rest of each array is unchanged.
 *
 * So "365;rent;-80000\r\n" in the table above gives 365 and -80000, one row, and JADVOLNI_OK at 17. With
 * x for the last 0 it gives no row, and JADVOLNI_INVALID_DIGIT in column 2 at 14.
 *
 * CELLS OF GIVEN WIDTHS. Each column has a fixed number of bytes of a row. A row that ends before or
 * within a cell has too few cells, and the first byte after the last cell is one cell too many. So lines
 * whose last blanks were trimmed have to be padded first.
 *
 *     static const size_t widths[] = {3, 4, 6};
 *     jadvolni_table fixed = {.allows_blanks = 1, .widths = widths, .width_count = 3};
 *
 * So with the columns above "365rent-80000\n 36bank  1250\n" has two rows, and so has the text without
 * its line feeds if `is_records` is set.
 *
 * A FILE IN BLOCKS. If `is_last` is false, the text is one part of several, and an unfinished row at its
 * end isn't read: put the bytes from `r.place` on in front of the next part. Rows and places count from
 * the start of each part. If `r.place` is 0 for a part as long as the block, a row is longer than the
 * block. A call reads at most `capacity` rows: before you read the next part, call again with what is
 * left, until fewer rows than `capacity` come.
 *
 * A header isn't a row of the table: pass what follows it, from place
 * `jadvolni_row_place(text, len, &table, 0).stop` on. A byte order mark, EF BB BF, isn't skipped: it
 * belongs to the first cell, and no number begins with it.
 *
 * In addition to what the head of this file requires, `columns` points to `column_count` columns, and may
 * be NULL if that is 0. The array of a column points to as many writable elements as its capacity,
 * `present.bytes` to `present.size` writable bytes, `missing` to `missing_len` bytes and `widths` to
 * `width_count` widths, and each may be NULL if its count is 0. Nothing that is written overlaps the text,
 * a struct or another array. The structs themselves are unchanged.
 */
jadvolni_table_result jadvolni_parse_table(const char *text, size_t len, bool is_last,
                                           const jadvolni_table *table, size_t capacity,
                                           jadvolni_table_column *columns, size_t column_count)
    JADVOLNI_CHECKED_(4) JADVOLNI_TEXT_ JADVOLNI_READS_(6, 7);

/* ---- bad rows ---- */

/* Where a row of a table is. */
typedef struct jadvolni_row_result {
    uint32_t status; /* a jadvolni_status */
    size_t start;
    size_t stop;
} jadvolni_row_result;

/*
 * Returns where the row with a given number, from 0, starts, and where the next one does, or the end of
 * the text. Use it after a fault, with the number that jadvolni_parse_table returned in `r.rows`: the
 * text from `stop` on has the rows after the bad one.
 *
 *     jadvolni_row_result bad = jadvolni_row_place(text, len, &ledger, r.rows);
 *     fprintf(stderr, "%.*s", (int)(bad.stop - bad.start), text + bad.start);
 *
 *     status    JADVOLNI_OK, or JADVOLNI_INVALID_TABLE, and then both places are 0.
 *     start     The place of the row's first byte. If there is no such row, both places are `len`.
 *     stop      The place after the row, its line end, and the empty rows after it that are skipped.
 *
 * A quote that is never closed extends to the end of the text, and so does its row; in a part of a text,
 * an unfinished row at the end stops with the part. In "1;;2\r\nx;;3\r\n" row 1 is from 6 to 12.
 *
 * The text and the table must be as for jadvolni_parse_table, but there may be any number of widths. It
 * takes the time to scan the text up to the row.
 */
jadvolni_row_result jadvolni_row_place(const char *text, size_t len, const jadvolni_table *table,
                                       size_t row) JADVOLNI_CHECKED_(3) JADVOLNI_TEXT_;

/* Where a cell is, including its quotes and blanks. */
typedef struct jadvolni_cell_place {
    size_t start; /* the place of its first byte, from the start of the text that was read */
    size_t size;  /* how many bytes it has */
} jadvolni_cell_place;

/* How many cells a row has. */
typedef struct jadvolni_cells_result {
    uint32_t status; /* a jadvolni_status */
    size_t count;
} jadvolni_cells_result;

/*
 * Finds the cells of the first row of the text, from the column `first` on, counted from 0. Use it for
 * the names in a header, and for the cell of a fault:
 *
 *     jadvolni_cell_place cell;
 *     const char *row = text + bad.start;
 *     size_t row_len = bad.stop - bad.start;
 *     if (jadvolni_row_cells(row, row_len, &ledger, r.column, &cell, 1).count > r.column)
 *         fprintf(stderr, "%.*s", (int)cell.size, row + cell.start);
 *
 *     status    JADVOLNI_OK, or JADVOLNI_INVALID_TABLE, and then the count is 0.
 *     count     How many cells the row has, including those before `first` and those without room.
 *     cells     Where they are, from `first` on, as long as there is room. The rest of the array is
 *               unchanged.
 *
 * With widths, the cells are those that are complete, and one more if bytes follow the last column: of
 * the widths 2 and 3 "ab12" has 1 cell, and "ab1234" has 3. With separators, an empty row has one empty
 * cell; an empty text has no row. An empty row counts here even if the table skips empty rows, and the
 * contents of cells aren't checked. In "ab;;\"c;d\"\r\n", with quotes and returns, there are 3 cells; from
 * column 1 on they are at 3 with 0 bytes and at 4 with 5.
 *
 * The text and the table must be as for jadvolni_row_place. `cells` points to `capacity` writable
 * structs, and may be NULL if that is 0. They overlap nothing else. It takes the time to scan the row.
 */
jadvolni_cells_result jadvolni_row_cells(const char *text, size_t len, const jadvolni_table *table,
                                         size_t first, jadvolni_cell_place *cells, size_t capacity)
    JADVOLNI_CHECKED_(3) JADVOLNI_TEXT_ JADVOLNI_WRITES_(5, 6);

/* A bad row: one with a fault. */
typedef struct jadvolni_bad_row {
    uint32_t status; /* a jadvolni_status: its first fault */

    /* All 0: they are for later versions. */
    uint8_t reserved[20];

    /* Its number among all rows of the text, good and bad, from 0. */
    size_t row;

    /* The column of the fault, and its place in the text, as jadvolni_parse_table returns them. */
    size_t column;
    size_t place;

    /* Where the row starts, and where the next one does, as jadvolni_row_place returns them. */
    size_t start;
    size_t stop;
} jadvolni_bad_row;

/* What the call that skips bad rows returns. */
typedef struct jadvolni_skipping_result {
    uint32_t status; /* a jadvolni_status */
    size_t column;
    size_t rows;
    size_t bad_rows;
    size_t place;
} jadvolni_skipping_result;

/*
 * Reads the rows of a text, as jadvolni_parse_table does, but skips the bad ones and counts them.
 *
 *     jadvolni_bad_row bad[10];
 *     jadvolni_skipping_result r = jadvolni_parse_table_skipping(text, len, true, &ledger, 1000,
 *                                                                columns, 3, bad, 10);
 *     for (size_t k = 0; k < r.bad_rows && k < 10; k++)
 *         fprintf(stderr, "row %zu, column %zu, byte %zu: %s\n", bad[k].row + 1, bad[k].column + 1,
 *                 bad[k].place, jadvolni_status_text(bad[k].status));
 *
 *     r.status    JADVOLNI_OK, whatever the text, or what is wrong with the table or with a column. For
 *                 the words copy its fields into a jadvolni_table_result for jadvolni_table_text:
 *                 {r.status, r.column, r.rows, r.place}.
 *     r.column    The column that is wrong, from 0; otherwise 0.
 *     r.rows      How many good rows were read, at most `capacity`.
 *     r.bad_rows  How many bad rows were skipped, including those that `bad` has no room for.
 *     r.place     Where reading stopped: the start of the row after the last of `capacity` good ones,
 *                 or the end of the text. A call on the text from there on continues exactly there,
 *                 and counts its rows and places from there.
 *     bad         The bad rows, in order, as long as there is room. The rest of the array is unchanged.
 *
 * All good rows are stored, and no others, without gaps. A row with too few or too many cells is as bad
 * as any other. If the table has quotes, a stray one takes the lines up to the next stray one, or to the
 * end of the text, into its row: if that is bad, they are all skipped, as one row. A bad row is read up
 * to its fault, into the elements of the next good one: so if fewer rows than `capacity` come, the
 * element after the last one, and its bit, may have changed in each array. Everything else there is
 * unchanged.
 *
 * So "365;rent;-80000\r\n366;x\r\n367;;7\r\n" in the ledger gives two rows, 365 and 367, and one bad row:
 * number 1, JADVOLNI_TOO_FEW_CELLS in column 2 at 22, from 17 to 24. The place is 32.
 *
 * A FILE IN BLOCKS is read as with jadvolni_parse_table: if `is_last` is false, an unfinished row at the
 * end isn't read, and after `capacity` rows, call again with what is left before the next part. A bad
 * row after the last of `capacity` good ones isn't read: the next call skips it.
 *
 * In addition to what jadvolni_parse_table requires, `bad` points to `bad_capacity` writable structs, and
 * may be NULL if that is 0. They overlap nothing else.
 */
jadvolni_skipping_result jadvolni_parse_table_skipping(
    const char *text, size_t len, bool is_last, const jadvolni_table *table, size_t capacity,
    jadvolni_table_column *columns, size_t column_count, jadvolni_bad_row *bad, size_t bad_capacity)
    JADVOLNI_CHECKED_(4) JADVOLNI_TEXT_ JADVOLNI_READS_(6, 7) JADVOLNI_WRITES_(8, 9);

/* ---- quotes ---- */

/*
 * Copies a text, with each doubled quote as one, and returns how many bytes that takes: at most `len`.
 * It is for what stands within the quotes of a cell.
 *
 *     size_t size = jadvolni_fold_quotes(text, len, folded, sizeof folded);
 *     if (size <= sizeof folded) fwrite(folded, 1, size, stdout);
 *
 * If that is more than `capacity`, nothing is written; a call with room for as many bytes writes them
 * all. What follows the written bytes is unchanged. A quote that isn't doubled stays, so of three in a
 * row two are left. The text 5"" nails gives 5" nails, and 8.
 *
 * `folded` points to `capacity` writable bytes, and may be NULL if that is 0. They don't overlap the
 * text.
 */
size_t jadvolni_fold_quotes(const char *text, size_t len, char *folded, size_t capacity)
    JADVOLNI_TEXT_ JADVOLNI_WRITES_(3, 4);

#ifdef __clang__
#pragma clang diagnostic pop
#endif

#undef JADVOLNI_PURE_
#undef JADVOLNI_READS_
#undef JADVOLNI_TEXT_
#undef JADVOLNI_WRITES_

/* ---- helpers, written in C: they are tested, and nothing about them is proved ---- */

/* So are two that stand above: jadvolni_format_of_radix, and what jadvolni_parse does for the kind of
 * `long long` that isn't int64_t or uint64_t. */

/*
 * Reads the column of a part of a text, such as a block of a file: all fields if it is the last part,
 * otherwise its whole ones. Everything else is as for jadvolni_parse_u64_column. Put the bytes from
 * `r.place` on in front of the next part: then all parts give the numbers of the whole text.
 */
#define JADVOLNI_COLUMN_PART_(name, type)                                                      \
    static inline JADVOLNI_CHECKED_(5, 8) jadvolni_result jadvolni_parse_##name##_column_part( \
        const char *text, size_t len, bool is_last, uint8_t separator,                         \
        const jadvolni_format *format, type *values, size_t capacity, size_t *count)           \
    {                                                                                          \
        size_t whole = is_last ? len : jadvolni_field_start(text, len, separator);             \
        return jadvolni_parse_##name##_column(text, whole, separator, format, values,          \
                                              capacity, count);                                \
    }

JADVOLNI_COLUMN_PART_(u8, uint8_t)
JADVOLNI_COLUMN_PART_(u16, uint16_t)
JADVOLNI_COLUMN_PART_(u32, uint32_t)
JADVOLNI_COLUMN_PART_(u64, uint64_t)
JADVOLNI_COLUMN_PART_(i8, int8_t)
JADVOLNI_COLUMN_PART_(i16, int16_t)
JADVOLNI_COLUMN_PART_(i32, int32_t)
JADVOLNI_COLUMN_PART_(i64, int64_t)

#undef JADVOLNI_COLUMN_PART_
#undef JADVOLNI_CHECKED_

/* The name of a status, such as "Overflow" for JADVOLNI_OVERFLOW; "Unknown" if there is no such status. */
static inline const char *jadvolni_status_name(uint32_t status)
{
    switch (status) {
    case JADVOLNI_OK: return "Ok";
    case JADVOLNI_OVERFLOW: return "Overflow";
    case JADVOLNI_UNDERFLOW: return "Underflow";
    case JADVOLNI_INVALID_DIGIT: return "InvalidDigit";
    case JADVOLNI_EMPTY: return "Empty";
    case JADVOLNI_MISSING_SIGN: return "MissingSign";
    case JADVOLNI_INVALID_POSITIVE_SIGN: return "InvalidPositiveSign";
    case JADVOLNI_INVALID_LEADING_ZEROS: return "InvalidLeadingZeros";
    case JADVOLNI_INVALID_MANTISSA_RADIX: return "InvalidMantissaRadix";
    case JADVOLNI_INVALID_DIGIT_SEPARATOR: return "InvalidDigitSeparator";
    case JADVOLNI_INVALID_BASE_PREFIX: return "InvalidBasePrefix";
    case JADVOLNI_INVALID_BASE_SUFFIX: return "InvalidBaseSuffix";
    case JADVOLNI_INVALID_PUNCTUATION: return "InvalidPunctuation";
    case JADVOLNI_INVALID_LITERAL_PREFIXES: return "InvalidLiteralPrefixes";
    case JADVOLNI_TOO_FEW_CELLS: return "TooFewCells";
    case JADVOLNI_TOO_MANY_CELLS: return "TooManyCells";
    case JADVOLNI_MISSING_RETURN: return "MissingReturn";
    case JADVOLNI_INVALID_TABLE: return "InvalidTable";
    case JADVOLNI_MISPLACED_QUOTE: return "MisplacedQuote";
    case JADVOLNI_INVALID_FIXED_RADIX: return "InvalidFixedRadix";
    case JADVOLNI_INVALID_FIXED_AFFIX: return "InvalidFixedAffix";
    case JADVOLNI_INVALID_POINT: return "InvalidPoint";
    case JADVOLNI_INVALID_PLACES: return "InvalidPlaces";
    case JADVOLNI_UNKNOWN_SUFFIX: return "UnknownSuffix";
    case JADVOLNI_INVALID_SUFFIX_TABLE: return "InvalidSuffixTable";
    case JADVOLNI_UNKNOWN_FIELD: return "UnknownField";
    default: return "Unknown";
    }
}

/* What a status means, such as "missing digit", or "the radix has to be 2 to 36" for a fault of a format. */
static inline const char *jadvolni_status_text(uint32_t status)
{
    switch (status) {
    case JADVOLNI_OK: return "no fault";
    case JADVOLNI_OVERFLOW: return "overflow";
    case JADVOLNI_UNDERFLOW: return "underflow";
    case JADVOLNI_INVALID_DIGIT: return "invalid digit";
    case JADVOLNI_EMPTY: return "missing digit";
    case JADVOLNI_MISSING_SIGN: return "missing sign";
    case JADVOLNI_INVALID_POSITIVE_SIGN: return "forbidden plus sign";
    case JADVOLNI_INVALID_LEADING_ZEROS: return "forbidden leading zero";
    case JADVOLNI_INVALID_MANTISSA_RADIX: return "the radix has to be 2 to 36";
    case JADVOLNI_INVALID_DIGIT_SEPARATOR:
        return "the separator has to be ASCII, and no sign and no digit of the radix";
    case JADVOLNI_INVALID_BASE_PREFIX:
        return "the prefix has to be ASCII, and no sign and no digit of the radix";
    case JADVOLNI_INVALID_BASE_SUFFIX:
        return "the suffix has to be ASCII, and no sign and no digit of the radix";
    case JADVOLNI_INVALID_PUNCTUATION:
        return "separator, prefix and suffix have to be different bytes, and no letter in "
               "two cases";
    case JADVOLNI_INVALID_LITERAL_PREFIXES:
        return "literal prefixes and octal zeros need the radix 10, and literal prefixes no "
               "prefix, and no separator or suffix that may be a part of 0x, 0o, 0b or of "
               "their digits";
    case JADVOLNI_TOO_FEW_CELLS: return "too few cells";
    case JADVOLNI_TOO_MANY_CELLS: return "too many cells";
    case JADVOLNI_MISSING_RETURN: return "missing carriage return";
    case JADVOLNI_INVALID_TABLE:
        return "each array of a table has to have room for all rows, widths have to be as "
               "many as columns, records need widths, and the reserved bytes of a table have "
               "to be 0";
    case JADVOLNI_MISPLACED_QUOTE: return "misplaced quote";
    case JADVOLNI_INVALID_FIXED_RADIX:
        return "fixed-point numbers have to have the radix 10";
    case JADVOLNI_INVALID_FIXED_AFFIX:
        return "fixed-point numbers have no prefix, no suffix, no literal prefixes and no "
               "octal zeros";
    case JADVOLNI_INVALID_POINT:
        return "the point has to be no digit, no sign, and not the separator of the integer "
               "part";
    case JADVOLNI_INVALID_PLACES:
        return "fixed-point numbers have to have at most 38 places";
    case JADVOLNI_UNKNOWN_SUFFIX: return "unknown suffix";
    case JADVOLNI_INVALID_SUFFIX_TABLE:
        return "each suffix of a table has to name a type, and its reserved bytes have to be "
               "0";
    case JADVOLNI_UNKNOWN_FIELD:
        return "the reserved bytes and bits of the format have to be 0";
    default: return "a status that only a later library has";
    }
}

/* Which condition a column breaks, if it was refused with a status in a call for this many rows. */
static inline const char *jadvolni_column_text_(uint32_t status, size_t rows,
                                                const jadvolni_table_column *column)
{
    const size_t rooms[] = {column->i64.capacity, column->u64.capacity, column->i32.capacity,
                            column->u32.capacity, column->i16.capacity, column->u16.capacity,
                            column->i8.capacity, column->u8.capacity, column->text.capacity};
    size_t first = 0;
    while (first < 8 && rooms[first] == 0) first++; /* the first that has room is the column's */
    if (status == JADVOLNI_INVALID_MANTISSA_RADIX && column->format.mantissa_radix == 0)
        return "the column has an array and no format: set it, as to the standard format";
    if (status != JADVOLNI_INVALID_TABLE) return jadvolni_status_text(status);
    if (rooms[first] == 0)
        return "the column has a format, and no array that has room: set an array and its capacity, or "
               "leave out the format too, and the column isn't read";
    if (rooms[first] < rows) return "the column's array has room for fewer rows than are asked for";
    return "the column's bits have room for fewer rows than are asked for: a byte is for 8 rows";
}

/* What a result of jadvolni_parse_table means, which was called with these arguments: the text of its
 * status, and if the table or the column `answer.column` was refused, which condition it breaks. */
static inline const char *jadvolni_table_text(jadvolni_table_result answer, const jadvolni_table *table,
                                              size_t capacity, const jadvolni_table_column *columns,
                                              size_t column_count)
{
    if (answer.status == JADVOLNI_INVALID_TABLE) {
        size_t place;
        for (place = 0; place < sizeof table->reserved; place++)
            if (table->reserved[place] != 0) return "the reserved bytes of the table have to be 0";
        if (table->width_count != 0 && table->width_count != column_count)
            return "the table has widths, and not one for each column";
        if (table->width_count == 0 && table->is_records != 0)
            return "a table whose rows are records needs widths";
    }
    if (answer.column >= column_count) return jadvolni_status_text(answer.status);
    return jadvolni_column_text_(answer.status, capacity, &columns[answer.column]);
}

#ifdef __SIZEOF_INT128__
/* The types of 128 bits of gcc and clang. */
__extension__ typedef unsigned __int128 jadvolni_native_uint128;
__extension__ typedef __int128 jadvolni_native_int128;

/* The number whose halves these are. */
static inline jadvolni_native_uint128 jadvolni_u128_number(jadvolni_uint128 halves)
{
    jadvolni_native_uint128 high = halves.high;
    return high << 64 | halves.low;
}

/* The number whose halves these are, high * 2^64 + low; the high one has the sign. */
static inline jadvolni_native_int128 jadvolni_i128_number(jadvolni_int128 halves)
{
    jadvolni_native_int128 high = halves.high;
    return high * 4294967296 * 4294967296 + halves.low;
}
#endif

#ifdef __cplusplus
}
#endif

/* ---- the layout that the library was built for ---- */

#if defined __cplusplus
#define JADVOLNI_ASSERT_(name, condition) static_assert(condition, #name)
#elif defined __STDC_VERSION__ && __STDC_VERSION__ >= 201112L
#define JADVOLNI_ASSERT_(name, condition) _Static_assert(condition, #name)
#else
#define JADVOLNI_ASSERT_(name, condition) typedef char jadvolni_##name##_[(condition) ? 1 : -1]
#endif

JADVOLNI_ASSERT_(size_t_has_64_bits, sizeof(size_t) == 8 && sizeof(ptrdiff_t) == 8);
JADVOLNI_ASSERT_(result_has_16_bytes, sizeof(jadvolni_result) == 16);
JADVOLNI_ASSERT_(status_is_at_0, offsetof(jadvolni_result, status) == 0);
JADVOLNI_ASSERT_(place_is_at_8, offsetof(jadvolni_result, place) == 8);
JADVOLNI_ASSERT_(format_has_32_bytes, sizeof(jadvolni_format) == 32);
JADVOLNI_ASSERT_(mantissa_radix_is_at_0, offsetof(jadvolni_format, mantissa_radix) == 0);
JADVOLNI_ASSERT_(base_suffix_is_at_3, offsetof(jadvolni_format, base_suffix) == 3);
JADVOLNI_ASSERT_(literal_prefixes_is_at_16, offsetof(jadvolni_format, literal_prefixes) == 16);
JADVOLNI_ASSERT_(fixed_has_48_bytes, sizeof(jadvolni_fixed) == 48);
JADVOLNI_ASSERT_(point_is_at_32, offsetof(jadvolni_fixed, point) == 32);
JADVOLNI_ASSERT_(position_has_16_bytes, sizeof(jadvolni_position) == 16);
JADVOLNI_ASSERT_(suffix_has_24_bytes, sizeof(jadvolni_suffix) == 24);
JADVOLNI_ASSERT_(suffix_type_is_at_16, offsetof(jadvolni_suffix, type) == 16);
JADVOLNI_ASSERT_(table_has_48_bytes, sizeof(jadvolni_table) == 48);
JADVOLNI_ASSERT_(table_column_has_208_bytes, sizeof(jadvolni_table_column) == 208);
JADVOLNI_ASSERT_(missing_is_at_16, offsetof(jadvolni_table, missing) == 16);
JADVOLNI_ASSERT_(widths_are_at_32, offsetof(jadvolni_table, widths) == 32);
JADVOLNI_ASSERT_(column_point_is_at_32, offsetof(jadvolni_table_column, point) == 32);
JADVOLNI_ASSERT_(first_array_is_at_48, offsetof(jadvolni_table_column, i64) == 48);
JADVOLNI_ASSERT_(last_array_is_at_160, offsetof(jadvolni_table_column, u8) == 160);
JADVOLNI_ASSERT_(texts_are_at_176, offsetof(jadvolni_table_column, text) == 176);
JADVOLNI_ASSERT_(cell_text_has_24_bytes, sizeof(jadvolni_cell_text) == 24);
JADVOLNI_ASSERT_(doubled_quotes_are_at_16, offsetof(jadvolni_cell_text, has_doubled_quotes) == 16);
JADVOLNI_ASSERT_(table_result_has_32_bytes, sizeof(jadvolni_table_result) == 32);
JADVOLNI_ASSERT_(column_is_at_8, offsetof(jadvolni_table_result, column) == 8);
JADVOLNI_ASSERT_(row_result_has_24_bytes, sizeof(jadvolni_row_result) == 24);
JADVOLNI_ASSERT_(cell_place_has_16_bytes, sizeof(jadvolni_cell_place) == 16);
JADVOLNI_ASSERT_(cells_result_has_16_bytes, sizeof(jadvolni_cells_result) == 16);
JADVOLNI_ASSERT_(bad_row_has_64_bytes, sizeof(jadvolni_bad_row) == 64);
JADVOLNI_ASSERT_(bad_row_number_is_at_24, offsetof(jadvolni_bad_row, row) == 24);
JADVOLNI_ASSERT_(bad_row_stop_is_at_56, offsetof(jadvolni_bad_row, stop) == 56);
JADVOLNI_ASSERT_(skipping_result_has_40_bytes, sizeof(jadvolni_skipping_result) == 40);
JADVOLNI_ASSERT_(bad_rows_are_at_24, offsetof(jadvolni_skipping_result, bad_rows) == 24);
JADVOLNI_ASSERT_(uint128_has_16_bytes, sizeof(jadvolni_uint128) == 16);
JADVOLNI_ASSERT_(uint128_high_is_at_8, offsetof(jadvolni_uint128, high) == 8);
JADVOLNI_ASSERT_(int128_has_16_bytes, sizeof(jadvolni_int128) == 16);
JADVOLNI_ASSERT_(int128_high_is_at_8, offsetof(jadvolni_int128, high) == 8);

#undef JADVOLNI_ASSERT_

#endif
