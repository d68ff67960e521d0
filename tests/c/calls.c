/* Every call of jadvolni.h, every status, and the ends of what a caller may hand over. */
#include "jadvolni.h"
#include "check.h"

#include <limits.h>

/* Checks a call's result, and the number at its pointer, which was 77 before. */
#define EXPECT(call, type, format_argument, text, wanted_status, wanted_place, wanted_number)      \
    do {                                                                                           \
        type value = 77;                                                                           \
        size_t len = sizeof(text) - 1;                                                             \
        char *bytes = exactly(text, len);                                                          \
        jadvolni_result r = call(bytes, len, format_argument &value);                              \
        free(bytes);                                                                               \
        CHECK(r.status == (wanted_status) && r.place == (wanted_place));                           \
        CHECK(value == (wanted_number));                                                           \
    } while (0)

#define NO_FORMAT
#define UNDER(format) &(format),

/* The six calls of a type at the ends of its range, and at a text of no number. */
#define EACH_CALL(name, type, greatest, len)                                                             \
    do {                                                                                                 \
        jadvolni_format standard = JADVOLNI_FORMAT_STANDARD;                                             \
        EXPECT(jadvolni_parse_##name, type, NO_FORMAT, #greatest, JADVOLNI_OK, len, (type)greatest##u);        \
        EXPECT(jadvolni_parse_##name, type, NO_FORMAT, #greatest ",", JADVOLNI_INVALID_DIGIT, len, 77);        \
        EXPECT(jadvolni_parse_##name##_partial, type, NO_FORMAT, #greatest ",", JADVOLNI_OK, len,              \
               (type)greatest##u);                                                                       \
        EXPECT(jadvolni_parse_##name##_partial, type, NO_FORMAT, #greatest "0", JADVOLNI_OVERFLOW, len, 77);   \
        EXPECT(jadvolni_parse_##name##_front, type, NO_FORMAT, #greatest ",", JADVOLNI_OK, len, (type)greatest##u);   \
        EXPECT(jadvolni_parse_##name##_front, type, NO_FORMAT, #greatest "0", JADVOLNI_OVERFLOW, len, 77);     \
        EXPECT(jadvolni_parse_##name##_front, type, NO_FORMAT, "x", JADVOLNI_EMPTY, 0, 77);                    \
        EXPECT(jadvolni_parse_##name##_front_with_format, type, UNDER(standard), "0;", JADVOLNI_OK, 1, 0);     \
        EXPECT(jadvolni_parse_##name##_front_with_format, type, UNDER(standard), ";", JADVOLNI_EMPTY, 0, 77);  \
        EXPECT(jadvolni_parse_##name##_with_format, type, UNDER(standard), #greatest, JADVOLNI_OK, len,        \
               (type)greatest##u);                                                                       \
        EXPECT(jadvolni_parse_##name##_with_format, type, UNDER(standard), "", JADVOLNI_EMPTY, 0, 77);         \
        EXPECT(jadvolni_parse_##name##_partial_with_format, type, UNDER(standard), #greatest ",", JADVOLNI_OK, \
               len, (type)greatest##u);                                                                  \
        standard.mantissa_radix = 37;                                                                    \
        EXPECT(jadvolni_parse_##name##_with_format, type, UNDER(standard), "1",                                \
               JADVOLNI_INVALID_MANTISSA_RADIX, 0, 77);                                                  \
        EXPECT(jadvolni_parse_##name##_partial_with_format, type, UNDER(standard), "1",                        \
               JADVOLNI_INVALID_MANTISSA_RADIX, 0, 77);                                                  \
        EXPECT(jadvolni_parse_##name##_front_with_format, type, UNDER(standard), "1",                          \
               JADVOLNI_INVALID_MANTISSA_RADIX, 0, 77);                                                  \
    } while (0)

static void each_type(void)
{
    EACH_CALL(u8, uint8_t, 255, 3);
    EACH_CALL(u16, uint16_t, 65535, 5);
    EACH_CALL(u32, uint32_t, 4294967295, 10);
    EACH_CALL(u64, uint64_t, 18446744073709551615, 20);
    EACH_CALL(usize, size_t, 18446744073709551615, 20);
    EACH_CALL(i8, int8_t, 127, 3);
    EACH_CALL(i16, int16_t, 32767, 5);
    EACH_CALL(i32, int32_t, 2147483647, 10);
    EACH_CALL(i64, int64_t, 9223372036854775807, 19);
    EACH_CALL(isize, ptrdiff_t, 9223372036854775807, 19);
    EXPECT(jadvolni_parse_i8, int8_t, NO_FORMAT, "-128", JADVOLNI_OK, 4, INT8_MIN);
    EXPECT(jadvolni_parse_i8, int8_t, NO_FORMAT, "-1290", JADVOLNI_UNDERFLOW, 3, 77);
    EXPECT(jadvolni_parse_i16, int16_t, NO_FORMAT, "-32768", JADVOLNI_OK, 6, INT16_MIN);
    EXPECT(jadvolni_parse_i32, int32_t, NO_FORMAT, "-2147483648", JADVOLNI_OK, 11, INT32_MIN);
    EXPECT(jadvolni_parse_i64, int64_t, NO_FORMAT, "-9223372036854775808", JADVOLNI_OK, 20, INT64_MIN);
    EXPECT(jadvolni_parse_isize, ptrdiff_t, NO_FORMAT, "-9223372036854775808", JADVOLNI_OK, 20, INT64_MIN);
}

/* Each fault of a text, where it stands. */
static void faults_of_texts(void)
{
    jadvolni_format json = JADVOLNI_FORMAT_JSON, with_sign = JADVOLNI_FORMAT_STANDARD;
    with_sign.required_mantissa_sign = 255; /* every byte but 0 sets a flag */
    EXPECT(jadvolni_parse_u64, uint64_t, NO_FORMAT, "18446744073709551616", JADVOLNI_OVERFLOW, 19, 77);
    EXPECT(jadvolni_parse_u8, uint8_t, NO_FORMAT, "2566x", JADVOLNI_OVERFLOW, 2, 77);
    EXPECT(jadvolni_parse_i8, int8_t, NO_FORMAT, "-129", JADVOLNI_UNDERFLOW, 3, 77);
    EXPECT(jadvolni_parse_u8, uint8_t, NO_FORMAT, "1a", JADVOLNI_INVALID_DIGIT, 1, 77);
    EXPECT(jadvolni_parse_i64, int64_t, NO_FORMAT, "1\0002", JADVOLNI_INVALID_DIGIT, 1, 77);
    EXPECT(jadvolni_parse_u8, uint8_t, NO_FORMAT, "+", JADVOLNI_EMPTY, 1, 77);
    EXPECT(jadvolni_parse_usize, size_t, NO_FORMAT, "", JADVOLNI_EMPTY, 0, 77);
    EXPECT(jadvolni_parse_i64_with_format, int64_t, UNDER(with_sign), "12", JADVOLNI_MISSING_SIGN, 0, 77);
    EXPECT(jadvolni_parse_i64_with_format, int64_t, UNDER(with_sign), "-12", JADVOLNI_OK, 3, -12);
    EXPECT(jadvolni_parse_i32_with_format, int32_t, UNDER(json), "+1", JADVOLNI_INVALID_POSITIVE_SIGN, 0, 77);
    EXPECT(jadvolni_parse_i32_with_format, int32_t, UNDER(json), "-01", JADVOLNI_INVALID_LEADING_ZEROS, 1, 77);
    EXPECT(jadvolni_parse_u64_partial, uint64_t, NO_FORMAT, "1234 }, {\"Key\"", JADVOLNI_OK, 4, 1234);
    EXPECT(jadvolni_parse_u32_partial, uint32_t, NO_FORMAT, "-12345", JADVOLNI_OK, 0, 0);
    EXPECT(jadvolni_parse_i8_partial, int8_t, NO_FORMAT, "-128 }", JADVOLNI_OK, 4, INT8_MIN);
}

/* A text that doesn't begin with a number is at fault, which `_partial` doesn't report. */
static void fronts_without_a_digit(void)
{
    jadvolni_format json = JADVOLNI_FORMAT_JSON, literal = JADVOLNI_FORMAT_LITERAL;
    jadvolni_format prefixed = jadvolni_format_of_radix(16), optional = JADVOLNI_FORMAT_STANDARD;
    jadvolni_uint128 u = {7, 7};
    jadvolni_int128 i = {7, 7};
    prefixed.base_prefix = 'x';
    optional.required_mantissa_digits = 0;
    EXPECT(jadvolni_parse_i64_partial, int64_t, NO_FORMAT, "x", JADVOLNI_OK, 0, 0);
    EXPECT(jadvolni_parse_i64_front, int64_t, NO_FORMAT, "x", JADVOLNI_EMPTY, 0, 77);
    EXPECT(jadvolni_parse_i64_front, int64_t, NO_FORMAT, "", JADVOLNI_EMPTY, 0, 77);
    EXPECT(jadvolni_parse_i64_front, int64_t, NO_FORMAT, "+a", JADVOLNI_EMPTY, 1, 77);
    EXPECT(jadvolni_parse_i64_front, int64_t, NO_FORMAT, "-x", JADVOLNI_EMPTY, 1, 77);
    EXPECT(jadvolni_parse_u64_front, uint64_t, NO_FORMAT, "-x", JADVOLNI_EMPTY, 0, 77);
    EXPECT(jadvolni_parse_i64_front, int64_t, NO_FORMAT, "-0]", JADVOLNI_OK, 2, 0);
    EXPECT(jadvolni_parse_i64_front_with_format, int64_t, UNDER(json), "[- 5]", JADVOLNI_EMPTY, 0, 77);
    EXPECT(jadvolni_parse_i64_front_with_format, int64_t, UNDER(json), "- 5]", JADVOLNI_EMPTY, 1, 77);
    EXPECT(jadvolni_parse_i64_front_with_format, int64_t, UNDER(json), "-5]", JADVOLNI_OK, 2, -5);
    EXPECT(jadvolni_parse_i64_front_with_format, int64_t, UNDER(literal), "0xg", JADVOLNI_EMPTY, 2, 77);
    EXPECT(jadvolni_parse_i64_front_with_format, int64_t, UNDER(prefixed), "0xg", JADVOLNI_EMPTY, 2, 77);
    EXPECT(jadvolni_parse_i64_front_with_format, int64_t, UNDER(prefixed), "0x0g", JADVOLNI_OK, 3, 0);
    EXPECT(jadvolni_parse_i64_front_with_format, int64_t, UNDER(optional), "", JADVOLNI_EMPTY, 0, 77);
    optional.reserved[0] = 1;
    EXPECT(jadvolni_parse_i64_front_with_format, int64_t, UNDER(optional), "1", JADVOLNI_UNKNOWN_FIELD, 0, 77);
    CHECK(jadvolni_parse_u128_front("x", 1, &u).status == JADVOLNI_EMPTY && u.low == 7 && u.high == 7);
    CHECK(jadvolni_parse_u128_front("5x", 2, &u).place == 1 && u.low == 5 && u.high == 0);
    CHECK(jadvolni_parse_i128_front_with_format("-x", 2, &json, &i).place == 1 && i.low == 7);
    CHECK(jadvolni_parse_i128_front_with_format("-1x", 3, &json, &i).place == 2 && i.high == -1);
    CHECK(jadvolni_parse_u64_front(NULL, 0, &u.low).status == JADVOLNI_EMPTY && u.low == 5);
}

/* The rules that a format may break, in their order. */
static void faults_of_formats(void)
{
    jadvolni_format format = JADVOLNI_FORMAT_STANDARD;
    CHECK(jadvolni_format_error(&format) == JADVOLNI_OK);
    format.base_prefix = 'x';
    format.literal_prefixes = 1;
    CHECK(jadvolni_format_error(&format) == JADVOLNI_INVALID_LITERAL_PREFIXES);
    format.digit_separator = 'X';
    CHECK(jadvolni_format_error(&format) == JADVOLNI_INVALID_PUNCTUATION);
    format.base_suffix = 0x80;
    CHECK(jadvolni_format_error(&format) == JADVOLNI_INVALID_BASE_SUFFIX);
    format.base_prefix = '9';
    CHECK(jadvolni_format_error(&format) == JADVOLNI_INVALID_BASE_PREFIX);
    format.digit_separator = '+';
    CHECK(jadvolni_format_error(&format) == JADVOLNI_INVALID_DIGIT_SEPARATOR);
    format.mantissa_radix = 1;
    CHECK(jadvolni_format_error(&format) == JADVOLNI_INVALID_MANTISSA_RADIX);
    EXPECT(jadvolni_parse_i64_with_format, int64_t, UNDER(format), "1", JADVOLNI_INVALID_MANTISSA_RADIX, 0, 77);
    format.reserved[sizeof format.reserved - 1] = 1;
    CHECK(jadvolni_format_error(&format) == JADVOLNI_UNKNOWN_FIELD);
    EXPECT(jadvolni_parse_i64_with_format, int64_t, UNDER(format), "1", JADVOLNI_UNKNOWN_FIELD, 0, 77);
    EXPECT(jadvolni_parse_i64_partial_with_format, int64_t, UNDER(format), "1", JADVOLNI_UNKNOWN_FIELD, 0, 77);
    memset(&format, 0, sizeof format);
    CHECK(jadvolni_format_error(&format) == JADVOLNI_INVALID_MANTISSA_RADIX);
}

static void formats(void)
{
    jadvolni_format literal = JADVOLNI_FORMAT_LITERAL, hexadecimal = JADVOLNI_FORMAT_STANDARD;
    EXPECT(jadvolni_parse_u64_with_format, uint64_t, UNDER(literal), "0xFF_FF", JADVOLNI_OK, 7, 65535);
    EXPECT(jadvolni_parse_u64_partial_with_format, uint64_t, UNDER(literal), "0b102", JADVOLNI_OK, 4, 2);
    EXPECT(jadvolni_parse_u64_with_format, uint64_t, UNDER(literal), "0o8", JADVOLNI_INVALID_DIGIT, 2, 77);
    EXPECT(jadvolni_parse_u64_with_format, uint64_t, UNDER(literal), "0x_1", JADVOLNI_INVALID_DIGIT, 2, 77);
    literal.integer_prefix_digit_separator = 1;
    EXPECT(jadvolni_parse_u64_with_format, uint64_t, UNDER(literal), "0x_1F", JADVOLNI_OK, 5, 31);
    EXPECT(jadvolni_parse_u64_with_format, uint64_t, UNDER(literal), "0777", JADVOLNI_OK, 4, 777);
    EXPECT(jadvolni_parse_u64_with_format, uint64_t, UNDER(literal), "+1", JADVOLNI_OK, 2, 1);
    literal.literal_octal_zero = 1;
    EXPECT(jadvolni_parse_u64_with_format, uint64_t, UNDER(literal), "0777", JADVOLNI_OK, 4, 511);
    hexadecimal.mantissa_radix = 16;
    hexadecimal.base_prefix = 'x';
    EXPECT(jadvolni_parse_i64_with_format, int64_t, UNDER(hexadecimal), "-0XfF", JADVOLNI_OK, 5, -255);
    EXPECT(jadvolni_parse_u8_with_format, uint8_t, UNDER(hexadecimal), "0x", JADVOLNI_EMPTY, 2, 77);
    EXPECT(jadvolni_parse_u8_with_format, uint8_t, UNDER(hexadecimal), "0x1F", JADVOLNI_OK, 4, 31);
}

/* The byte 0 is no separator, prefix or suffix, unless its flag is set. */
static void nul_as_punctuation(void)
{
    jadvolni_format nul = JADVOLNI_FORMAT_STANDARD;
    nul.integer_internal_digit_separator = 1;
    nul.integer_trailing_digit_separator = 1;
    EXPECT(jadvolni_parse_u16_with_format, uint16_t, UNDER(nul), "1\0002\0003\0", JADVOLNI_INVALID_DIGIT, 1, 77);
    nul.nul_is_punctuation = JADVOLNI_NUL_IS_SEPARATOR;
    EXPECT(jadvolni_parse_u16_partial_with_format, uint16_t, UNDER(nul), "1\0002 3", JADVOLNI_OK, 3, 12);
    EXPECT(jadvolni_parse_u16_with_format, uint16_t, UNDER(nul), "1\0002\0003\0", JADVOLNI_OK, 6, 123);
    /* That reads no UTF-16: the bytes 31 31, there the one letter U+3131, are two digits. */
    EXPECT(jadvolni_parse_u16_with_format, uint16_t, UNDER(nul), "\x31\x31", JADVOLNI_OK, 2, 11);
    nul.nul_is_punctuation = JADVOLNI_NUL_IS_SEPARATOR | JADVOLNI_NUL_IS_PREFIX | JADVOLNI_NUL_IS_SUFFIX;
    CHECK(jadvolni_format_error(&nul) == JADVOLNI_INVALID_PUNCTUATION);
    nul.digit_separator = '_'; /* Beside a byte its bit does nothing. */
    nul.nul_is_punctuation = JADVOLNI_NUL_IS_SEPARATOR;
    EXPECT(jadvolni_parse_u16_with_format, uint16_t, UNDER(nul), "1_2", JADVOLNI_OK, 3, 12);
    nul.digit_separator = 0;
    nul.nul_is_punctuation = JADVOLNI_NUL_IS_SUFFIX;
    EXPECT(jadvolni_parse_u16_with_format, uint16_t, UNDER(nul), "12\0", JADVOLNI_OK, 3, 12);
    nul.nul_is_punctuation = JADVOLNI_NUL_IS_PREFIX;
    EXPECT(jadvolni_parse_u16_with_format, uint16_t, UNDER(nul), "0\00012", JADVOLNI_OK, 4, 12);
}

/* A format that begins with {0} requires no digit, and one of jadvolni_format_of_radix does. */
static void formats_of_a_radix(void)
{
    jadvolni_format zeroed = {0}, standard = JADVOLNI_FORMAT_STANDARD;
    jadvolni_format decimal = jadvolni_format_of_radix(10), sixteen = jadvolni_format_of_radix(16);
    static const int wrong[] = {INT_MIN, -254, -1, 0, 1, 37, 256 + 10, INT_MAX};
    zeroed.mantissa_radix = 10;
    EXPECT(jadvolni_parse_i64_with_format, int64_t, UNDER(zeroed), "", JADVOLNI_OK, 0, 0);
    EXPECT(jadvolni_parse_i64_with_format, int64_t, UNDER(decimal), "", JADVOLNI_EMPTY, 0, 77);
    EXPECT(jadvolni_parse_i64_with_format, int64_t, UNDER(sixteen), "-fF", JADVOLNI_OK, 3, -255);
    CHECK(memcmp(&decimal, &standard, sizeof standard) == 0);
    for (size_t k = 0; k < sizeof wrong / sizeof *wrong; k++) {
        decimal = jadvolni_format_of_radix(wrong[k]);
        CHECK(jadvolni_format_error(&decimal) == JADVOLNI_INVALID_MANTISSA_RADIX);
    }
}

/* Each byte as the radix of a format that is else the standard one: "10" and "1" with the radix as a digit. */
static void each_radix(void)
{
    for (unsigned radix = 0; radix < 256; radix++) {
        jadvolni_format format = JADVOLNI_FORMAT_STANDARD;
        int is_radix = radix >= 2 && radix <= 36;
        char beyond[2] = {'1', (char)(radix < 10 ? '0' + radix : radix < 36 ? 'a' + radix - 10 : '~')};
        uint32_t value = 77;
        format.mantissa_radix = (uint8_t)radix;
        jadvolni_result r = jadvolni_parse_u32_with_format("10", 2, &format, &value);
        CHECK(r.status == (is_radix ? JADVOLNI_OK : JADVOLNI_INVALID_MANTISSA_RADIX));
        CHECK(r.place == (is_radix ? 2 : 0) && value == (is_radix ? radix : 77));
        r = jadvolni_parse_u32_partial_with_format(beyond, 2, &format, &value);
        CHECK(r.status == (is_radix ? JADVOLNI_OK : JADVOLNI_INVALID_MANTISSA_RADIX));
        CHECK(r.place == (is_radix ? 1 : 0) && value == (is_radix ? 1 : 77));
        for (size_t k = 0; k < sizeof format.reserved; k++) {
            format.reserved[k] = 1;
            r = jadvolni_parse_u32_with_format("10", 2, &format, &value);
            CHECK(r.status == JADVOLNI_UNKNOWN_FIELD && r.place == 0);
            format.reserved[k] = 0;
        }
        for (unsigned bit = 8; bit < 256; bit *= 2) {
            format.nul_is_punctuation = (uint8_t)bit;
            r = jadvolni_parse_u32_with_format("10", 2, &format, &value);
            CHECK(r.status == JADVOLNI_UNKNOWN_FIELD && r.place == 0);
        }
    }
}

static void halves(void)
{
    jadvolni_format standard = JADVOLNI_FORMAT_STANDARD;
    jadvolni_uint128 u = {7, 7};
    jadvolni_int128 i = {7, 7};
    jadvolni_result r = jadvolni_parse_u128("340282366920938463463374607431768211456", 39, &u);
    CHECK(r.status == JADVOLNI_OVERFLOW && r.place == 38 && u.low == 7 && u.high == 7);
    r = jadvolni_parse_u128("340282366920938463463374607431768211455", 39, &u);
    CHECK(r.status == JADVOLNI_OK && r.place == 39 && u.low == UINT64_MAX && u.high == UINT64_MAX);
    r = jadvolni_parse_u128_partial("18446744073709551616.", 21, &u);
    CHECK(r.status == JADVOLNI_OK && r.place == 20 && u.low == 0 && u.high == 1);
    r = jadvolni_parse_u128_with_format("18446744073709551617", 20, &standard, &u);
    CHECK(r.status == JADVOLNI_OK && r.place == 20 && u.low == 1 && u.high == 1);
    r = jadvolni_parse_u128_partial_with_format("5;", 2, &standard, &u);
    CHECK(r.status == JADVOLNI_OK && r.place == 1 && u.low == 5 && u.high == 0);
    r = jadvolni_parse_i128("-170141183460469231731687303715884105729", 40, &i);
    CHECK(r.status == JADVOLNI_UNDERFLOW && r.place == 39 && i.low == 7 && i.high == 7);
    r = jadvolni_parse_i128("-170141183460469231731687303715884105728", 40, &i);
    CHECK(r.status == JADVOLNI_OK && r.place == 40 && i.low == 0 && i.high == INT64_MIN);
#ifdef __SIZEOF_INT128__
    CHECK(jadvolni_i128_number(i) < 0 && jadvolni_u128_number(u) == 5);
#endif
    r = jadvolni_parse_i128("-1", 2, &i);
    CHECK(r.status == JADVOLNI_OK && r.place == 2 && i.low == UINT64_MAX && i.high == -1);
    r = jadvolni_parse_i128_partial("-1e5", 4, &i);
    CHECK(r.status == JADVOLNI_OK && r.place == 2 && i.low == UINT64_MAX && i.high == -1);
    r = jadvolni_parse_i128_with_format("-18446744073709551616", 21, &standard, &i);
    CHECK(r.status == JADVOLNI_OK && r.place == 21 && i.low == 0 && i.high == -1);
    r = jadvolni_parse_i128_partial_with_format("12", 2, &standard, &i);
    CHECK(r.status == JADVOLNI_OK && r.place == 2 && i.low == 12 && i.high == 0);
}

/* A text of no bytes may be NULL. */
static void null_texts(void)
{
    jadvolni_format optional = JADVOLNI_FORMAT_STANDARD;
    uint64_t value = 77;
    jadvolni_result r = jadvolni_parse_u64(NULL, 0, &value);
    CHECK(r.status == JADVOLNI_EMPTY && r.place == 0 && value == 77);
    r = jadvolni_parse_u64_partial(NULL, 0, &value);
    CHECK(r.status == JADVOLNI_EMPTY && r.place == 0 && value == 77);
    optional.required_mantissa_digits = 0;
    r = jadvolni_parse_u64_with_format(NULL, 0, &optional, &value);
    CHECK(r.status == JADVOLNI_OK && r.place == 0 && value == 0);
}

#if __STDC_VERSION__ >= 201112L
/* The call of C11 for the type of the value, which reads whole texts alone. */
#define EXPECT_GENERIC(type, text, wanted_status, wanted_place, wanted_number)                 \
    EXPECT(jadvolni_parse, type, NO_FORMAT, text, wanted_status, wanted_place, wanted_number); \
    EXPECT(jadvolni_parse, type, NO_FORMAT, "7x", JADVOLNI_INVALID_DIGIT, 1, 77)

static void by_type(void)
{
    jadvolni_uint128 u = {7, 7};
    jadvolni_int128 i = {7, 7};
    EXPECT_GENERIC(uint8_t, "255", JADVOLNI_OK, 3, 255);
    EXPECT_GENERIC(uint16_t, "65535", JADVOLNI_OK, 5, 65535);
    EXPECT_GENERIC(uint32_t, "4294967296", JADVOLNI_OVERFLOW, 9, 77);
    EXPECT_GENERIC(uint64_t, "4294967296", JADVOLNI_OK, 10, 4294967296);
    EXPECT_GENERIC(size_t, "4294967296", JADVOLNI_OK, 10, 4294967296);
    EXPECT_GENERIC(int8_t, "-129", JADVOLNI_UNDERFLOW, 3, 77);
    EXPECT_GENERIC(int16_t, "-129", JADVOLNI_OK, 4, -129);
    EXPECT_GENERIC(int32_t, "-32769", JADVOLNI_OK, 6, -32769);
    EXPECT_GENERIC(int64_t, "-2147483649", JADVOLNI_OK, 11, -2147483649);
    EXPECT_GENERIC(ptrdiff_t, "-2147483649", JADVOLNI_OK, 11, -2147483649);
    EXPECT_GENERIC(long long, "-9223372036854775808", JADVOLNI_OK, 20, INT64_MIN);
    EXPECT_GENERIC(unsigned long long, "18446744073709551615", JADVOLNI_OK, 20, UINT64_MAX);
    EXPECT_GENERIC(unsigned long long, "18446744073709551616", JADVOLNI_OVERFLOW, 19, 77);
    CHECK(jadvolni_parse("18446744073709551616", 20, &u).status == JADVOLNI_OK && u.high == 1);
    CHECK(jadvolni_parse("-1", 2, &i).status == JADVOLNI_OK && i.high == -1);
    CHECK(jadvolni_parse("7x", 2, &u).status == JADVOLNI_INVALID_DIGIT);
    CHECK(jadvolni_parse("7x", 2, &i).status == JADVOLNI_INVALID_DIGIT);
}
#else
static void by_type(void) {}
#endif

static void names(void)
{
    static const char *const known[] = {
        "Ok", "Overflow", "Underflow", "InvalidDigit", "Empty", "MissingSign", "InvalidPositiveSign",
        "InvalidLeadingZeros", "InvalidMantissaRadix", "InvalidDigitSeparator", "InvalidBasePrefix",
        "InvalidBaseSuffix", "InvalidPunctuation", "InvalidLiteralPrefixes"};
    uint32_t status;
    for (status = 0; status < sizeof known / sizeof *known; status++)
        CHECK(strcmp(jadvolni_status_name(status), known[status]) == 0);
    CHECK(strcmp(jadvolni_status_name(JADVOLNI_UNKNOWN_FIELD), "UnknownField") == 0);
    CHECK(strcmp(jadvolni_status_name(65), "Unknown") == 0);
    CHECK(strcmp(jadvolni_status_name(UINT32_MAX), "Unknown") == 0);
}

/* A literal under a format: its value, and where its number and its suffix end; or its fault. */
#define EXPECT_LITERAL(format, text, wanted_status, wanted_low, wanted_suffix, wanted_place)            \
    do {                                                                                               \
        jadvolni_uint128 value = {77, 77};                                                             \
        size_t suffix = 77, len = sizeof(text) - 1;                                                    \
        char *bytes = exactly(text, len);                                                              \
        jadvolni_result r = jadvolni_parse_literal(bytes, len, &(format), &value, &suffix);            \
        free(bytes);                                                                                   \
        CHECK(r.status == (wanted_status) && r.place == (wanted_place));                               \
        CHECK(value.low == (wanted_low) && value.high == (r.status ? 77u : 0u));                        \
        CHECK(suffix == (wanted_suffix));                                                              \
    } while (0)

static void literals(void)
{
    jadvolni_format c = JADVOLNI_FORMAT_C, c23 = JADVOLNI_FORMAT_C23, rust = JADVOLNI_FORMAT_RUST;
    jadvolni_uint128 value;
    size_t suffix;
    EXPECT_LITERAL(c, "0xFFull", JADVOLNI_OK, 255, 4, 7);
    EXPECT_LITERAL(c, "0777L;", JADVOLNI_OK, 511, 4, 5);
    EXPECT_LITERAL(c, "08", JADVOLNI_OK, 0, 1, 2);
    EXPECT_LITERAL(c, "1'0", JADVOLNI_OK, 1, 1, 1);
    EXPECT_LITERAL(c23, "1'0wb", JADVOLNI_OK, 10, 3, 5);
    EXPECT_LITERAL(c23, "1'u", JADVOLNI_OK, 1, 1, 1);
    EXPECT_LITERAL(rust, "1_000i64;", JADVOLNI_OK, 1000, 5, 8);
    EXPECT_LITERAL(rust, "1__u8", JADVOLNI_OK, 1, 3, 5);
    EXPECT_LITERAL(rust, "0b102", JADVOLNI_OK, 2, 4, 5);
    EXPECT_LITERAL(rust, "1e5", JADVOLNI_OK, 1, 1, 3);
    EXPECT_LITERAL(rust, "1.5", JADVOLNI_OK, 1, 1, 1);
    EXPECT_LITERAL(rust, "1\0u8", JADVOLNI_OK, 1, 1, 1);
    EXPECT_LITERAL(rust, "1\xff", JADVOLNI_OK, 1, 1, 1);
    EXPECT_LITERAL(rust, "", JADVOLNI_EMPTY, 77, 77, 0);
    EXPECT_LITERAL(rust, "u8", JADVOLNI_EMPTY, 77, 77, 0);
    EXPECT_LITERAL(rust, "0xu8", JADVOLNI_EMPTY, 77, 77, 2);
    EXPECT_LITERAL(rust, "+1", JADVOLNI_INVALID_POSITIVE_SIGN, 77, 77, 0);
    EXPECT_LITERAL(rust, "340282366920938463463374607431768211456", JADVOLNI_OVERFLOW, 77, 77, 38);
    CHECK(jadvolni_parse_literal("18446744073709551616u", 21, &c, &value, &suffix).status == JADVOLNI_OK);
    CHECK(value.low == 0 && value.high == 1 && suffix == 20);
    CHECK(jadvolni_parse_literal(NULL, 0, &c, &value, &suffix).status == JADVOLNI_EMPTY);
    rust.mantissa_radix = 37;
    EXPECT_LITERAL(rust, "1u8", JADVOLNI_INVALID_MANTISSA_RADIX, 77, 77, 0);
    rust.reserved[0] = 1;
    EXPECT_LITERAL(rust, "1u8", JADVOLNI_UNKNOWN_FIELD, 77, 77, 0);
}

/* Suffixes of C and of Rust, each with its type. The last entry is never reached. */
static const jadvolni_suffix suffixes[] = {
    JADVOLNI_SUFFIX("", JADVOLNI_TYPE_I32),      JADVOLNI_SUFFIX("u8", JADVOLNI_TYPE_U8),
    JADVOLNI_SUFFIX("i8", JADVOLNI_TYPE_I8),     JADVOLNI_SUFFIX("i16", JADVOLNI_TYPE_I16),
    JADVOLNI_SUFFIX("u16", JADVOLNI_TYPE_U16),   JADVOLNI_SUFFIX("u", JADVOLNI_TYPE_U32),
    JADVOLNI_SUFFIX("i64", JADVOLNI_TYPE_I64),   JADVOLNI_SUFFIX("ull", JADVOLNI_TYPE_U64),
    JADVOLNI_SUFFIX("i128", JADVOLNI_TYPE_I128), JADVOLNI_SUFFIX("u128", JADVOLNI_TYPE_U128),
    JADVOLNI_SUFFIX("z", JADVOLNI_TYPE_ISIZE),   JADVOLNI_SUFFIX("uz", JADVOLNI_TYPE_USIZE),
    JADVOLNI_SUFFIX("u8", JADVOLNI_TYPE_U64),
};
#define SUFFIX_COUNT (sizeof suffixes / sizeof *suffixes)

/* A literal with its type: its value, its entry, and where its number and its suffix end; or its fault. */
#define EXPECT_TYPED(format, text, wanted_status, wanted_low, wanted_entry, wanted_suffix, wanted_place) \
    do {                                                                                                 \
        jadvolni_uint128 value = {77, 77};                                                               \
        size_t suffix = 77, entry = 77, len = sizeof(text) - 1;                                          \
        char *bytes = exactly(text, len);                                                                \
        jadvolni_result r = jadvolni_parse_typed_literal(bytes, len, &(format), suffixes, SUFFIX_COUNT,  \
                                                         &value, &suffix, &entry);                       \
        free(bytes);                                                                                     \
        CHECK(r.status == (wanted_status) && r.place == (wanted_place));                                 \
        CHECK(value.low == (wanted_low) && value.high == (r.status ? 77u : 0u));                          \
        CHECK(entry == (wanted_entry) && suffix == (wanted_suffix));                                     \
    } while (0)

static void typed_literals(void)
{
    jadvolni_format c = JADVOLNI_FORMAT_C, rust = JADVOLNI_FORMAT_RUST;
    EXPECT_TYPED(rust, "7", JADVOLNI_OK, 7, 0, 1, 1);
    EXPECT_TYPED(rust, "255u8;", JADVOLNI_OK, 255, 1, 3, 5);
    EXPECT_TYPED(rust, "127i8", JADVOLNI_OK, 127, 2, 3, 5);
    EXPECT_TYPED(rust, "0x7FFFi16", JADVOLNI_OK, 32767, 3, 6, 9);
    EXPECT_TYPED(rust, "65_535u16", JADVOLNI_OK, 65535, 4, 6, 9);
    EXPECT_TYPED(c, "4294967295u", JADVOLNI_OK, 4294967295u, 5, 10, 11);
    EXPECT_TYPED(rust, "9_223_372_036_854_775_807i64", JADVOLNI_OK, INT64_MAX, 6, 25, 28);
    EXPECT_TYPED(c, "0xFFFFFFFFFFFFFFFFull", JADVOLNI_OK, UINT64_MAX, 7, 18, 21);
    EXPECT_TYPED(rust, "1i128", JADVOLNI_OK, 1, 8, 1, 5);
    EXPECT_TYPED(rust, "1u128", JADVOLNI_OK, 1, 9, 1, 5);
    EXPECT_TYPED(c, "0777z", JADVOLNI_OK, 511, 10, 4, 5);
    EXPECT_TYPED(c, "18446744073709551615uz", JADVOLNI_OK, UINT64_MAX, 11, 20, 22);
    EXPECT_TYPED(rust, "1.5", JADVOLNI_OK, 1, 0, 1, 1);
    EXPECT_TYPED(rust, "2147483648", JADVOLNI_OVERFLOW, 77, 77, 77, 9);
    EXPECT_TYPED(rust, "300u8", JADVOLNI_OVERFLOW, 77, 77, 77, 2);
    EXPECT_TYPED(rust, "128i8", JADVOLNI_OVERFLOW, 77, 77, 77, 2);
    EXPECT_TYPED(rust, "0x1_0000u16", JADVOLNI_OVERFLOW, 77, 77, 77, 7);
    EXPECT_TYPED(c, "9223372036854775808z", JADVOLNI_OVERFLOW, 77, 77, 77, 18);
    EXPECT_TYPED(c, "18446744073709551616uz", JADVOLNI_OVERFLOW, 77, 77, 77, 19);
    EXPECT_TYPED(rust, "170141183460469231731687303715884105728i128", JADVOLNI_OVERFLOW, 77, 77, 77, 38);
    EXPECT_TYPED(rust, "340282366920938463463374607431768211456u8", JADVOLNI_OVERFLOW, 77, 77, 77, 2);
    EXPECT_TYPED(rust, "0x1_0000_0000_0000_0000_0000_0000_0000_0000_u128", JADVOLNI_OVERFLOW, 77, 77, 77, 42);
    EXPECT_TYPED(c, "0400000000000000000000000000000000000000000z", JADVOLNI_OVERFLOW, 77, 77, 77, 22);
    EXPECT_TYPED(rust, "340282366920938463463374607431768211456x", JADVOLNI_UNKNOWN_SUFFIX, 77, 77, 77, 39);
    EXPECT_TYPED(c, "0400000000000000000000000000000000000000000008", JADVOLNI_INVALID_DIGIT, 77, 77, 77, 45);
    EXPECT_TYPED(rust, "0b102", JADVOLNI_INVALID_DIGIT, 77, 77, 77, 4);
    EXPECT_TYPED(c, "08", JADVOLNI_INVALID_DIGIT, 77, 77, 77, 1);
    EXPECT_TYPED(rust, "12abc", JADVOLNI_UNKNOWN_SUFFIX, 77, 77, 77, 2);
    EXPECT_TYPED(rust, "1e5", JADVOLNI_UNKNOWN_SUFFIX, 77, 77, 77, 1);
    EXPECT_TYPED(rust, "1U8", JADVOLNI_UNKNOWN_SUFFIX, 77, 77, 77, 1);
    EXPECT_TYPED(rust, "1u8\0", JADVOLNI_OK, 1, 1, 1, 3);
    EXPECT_TYPED(rust, "u8", JADVOLNI_EMPTY, 77, 77, 77, 0);
    EXPECT_TYPED(rust, "0xu8", JADVOLNI_EMPTY, 77, 77, 77, 2);
    EXPECT_TYPED(rust, "-1i8", JADVOLNI_EMPTY, 77, 77, 77, 0);
    rust.mantissa_radix = 37;
    EXPECT_TYPED(rust, "1u8", JADVOLNI_INVALID_MANTISSA_RADIX, 77, 77, 77, 0);
    rust.reserved[0] = 1;
    EXPECT_TYPED(rust, "1u8", JADVOLNI_UNKNOWN_FIELD, 77, 77, 77, 0);
}

/* A table without entries, and tables with a wrong entry, which are refused whatever the text is. */
static void tables_of_suffixes(void)
{
    static const uint32_t wrong[][2] = {{0, 0}, {13, 0}, {UINT32_MAX, 0}, {JADVOLNI_TYPE_U8, 1}};
    jadvolni_format format = JADVOLNI_FORMAT_C;
    jadvolni_suffix table[] = {{NULL, 0, JADVOLNI_TYPE_U8, 0}, JADVOLNI_SUFFIX("u", JADVOLNI_TYPE_U8)};
    jadvolni_uint128 value = {77, 77};
    size_t suffix = 77, entry = 77, k;
    jadvolni_result r = jadvolni_parse_typed_literal("12", 2, &format, NULL, 0, &value, &suffix, &entry);
    CHECK(r.status == JADVOLNI_UNKNOWN_SUFFIX && r.place == 2);
    for (k = 0; k < sizeof wrong / sizeof *wrong; k++) {
        table[1].type = wrong[k][0], table[1].reserved = wrong[k][1];
        r = jadvolni_parse_typed_literal("12", 2, &format, table, 2, &value, &suffix, &entry);
        CHECK(r.status == JADVOLNI_INVALID_SUFFIX_TABLE && r.place == 0);
    }
    CHECK(value.low == 77 && value.high == 77 && suffix == 77 && entry == 77);
    r = jadvolni_parse_typed_literal("12", 2, &format, table, 1, &value, &suffix, &entry);
    CHECK(r.status == JADVOLNI_OK && r.place == 2 && value.low == 12 && suffix == 2 && entry == 0);
    format.reserved[0] = 1, table[0].type = 0;
    r = jadvolni_parse_typed_literal("12", 2, &format, table, 1, &value, &suffix, &entry);
    CHECK(r.status == JADVOLNI_UNKNOWN_FIELD && r.place == 0);
}

/* The version is one, however it is written. */
static void version(void)
{
    char text[32];
    snprintf(text, sizeof text, "%d.%d.%d", JADVOLNI_VERSION_MAJOR, JADVOLNI_VERSION_MINOR, JADVOLNI_VERSION_PATCH);
    CHECK(strcmp(text, JADVOLNI_VERSION_STRING) == 0);
    CHECK(JADVOLNI_VERSION
          == 10000 * JADVOLNI_VERSION_MAJOR + 100 * JADVOLNI_VERSION_MINOR + JADVOLNI_VERSION_PATCH);
    CHECK(jadvolni_version() == JADVOLNI_VERSION);
}

int main(void)
{
    version();
    each_type();
    faults_of_texts();
    fronts_without_a_digit();
    faults_of_formats();
    formats();
    nul_as_punctuation();
    formats_of_a_radix();
    each_radix();
    halves();
    null_texts();
    by_type();
    literals();
    typed_literals();
    tables_of_suffixes();
    names();
    return checked();
}
