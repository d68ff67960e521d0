/* Fixed-point numbers, and line and column of a place, from C. */
#include "jadvolni.h"
#include "check.h"

#include <inttypes.h>

/* Checks a call's result, and the number at its pointer, which was 77 before. */
#define EXPECT(call, type, fixed, text, wanted_status, wanted_place, wanted_number) \
    do {                                                                            \
        type value = 77;                                                            \
        size_t len = sizeof(text) - 1;                                              \
        char *bytes = exactly(text, len);                                           \
        jadvolni_result r = call(bytes, len, &(fixed), &value);                     \
        free(bytes);                                                                \
        CHECK(r.status == (wanted_status) && r.place == (wanted_place));            \
        CHECK(value == (wanted_number));                                            \
    } while (0)

/* The two calls of a type, at a number, at a front, and where zeros that aren't written leave it. */
#define EACH_CALL(name, type, most, status, place)                                                   \
    do {                                                                                             \
        jadvolni_fixed cents = {.places = 2, .takes_fewer = 1};                                      \
        EXPECT(jadvolni_parse_##name##_fixed, type, cents, "1.2", JADVOLNI_OK, 3, 120);              \
        EXPECT(jadvolni_parse_##name##_fixed, type, cents, "1.234", JADVOLNI_INVALID_DIGIT, 4, 77);  \
        EXPECT(jadvolni_parse_##name##_fixed_front, type, cents, "1.2 EUR", JADVOLNI_OK, 3, 120);    \
        EXPECT(jadvolni_parse_##name##_fixed_front, type, cents, "1. And", JADVOLNI_OK, 1, 100);     \
        /* not final in a stream, though it stops before the text's end: "1.5" may follow */         \
        EXPECT(jadvolni_parse_##name##_fixed_front, type, cents, "1.", JADVOLNI_OK, 1, 100);         \
        EXPECT(jadvolni_parse_##name##_fixed, type, cents, most, status, place, 77);                 \
        cents.reserved[12] = 1;                                                                      \
        EXPECT(jadvolni_parse_##name##_fixed, type, cents, "1", JADVOLNI_UNKNOWN_FIELD, 0, 77);      \
        EXPECT(jadvolni_parse_##name##_fixed_front, type, cents, "1", JADVOLNI_UNKNOWN_FIELD, 0, 77); \
    } while (0)

static void each_type(void)
{
    EACH_CALL(u8, uint8_t, "3", JADVOLNI_OVERFLOW, 1);
    EACH_CALL(u16, uint16_t, "656", JADVOLNI_OVERFLOW, 3);
    EACH_CALL(u32, uint32_t, "42949673", JADVOLNI_OVERFLOW, 8);
    EACH_CALL(u64, uint64_t, "184467440737095517", JADVOLNI_OVERFLOW, 18);
    EACH_CALL(usize, size_t, "184467440737095516.16", JADVOLNI_OVERFLOW, 20);
    EACH_CALL(i8, int8_t, "-1.29", JADVOLNI_UNDERFLOW, 4);
    EACH_CALL(i16, int16_t, "-328", JADVOLNI_UNDERFLOW, 4);
    EACH_CALL(i32, int32_t, "21474837", JADVOLNI_OVERFLOW, 8);
    EACH_CALL(i64, int64_t, "-92233720368547758.09", JADVOLNI_UNDERFLOW, 20);
    EACH_CALL(isize, ptrdiff_t, "92233720368547758.08", JADVOLNI_OVERFLOW, 19);

    jadvolni_fixed most = {.places = 38, .takes_fewer = 1};
    jadvolni_uint128 u = {7, 7};
    jadvolni_result r = jadvolni_parse_u128_fixed("3.40282366920938463463374607431768211455", 40, &most, &u);
    CHECK(r.status == JADVOLNI_OK && u.low == UINT64_MAX && u.high == UINT64_MAX);
    jadvolni_int128 i = {7, 7};
    r = jadvolni_parse_i128_fixed_front("-0.00000000000000000000000000000000000001;", 42, &most, &i);
    CHECK(r.status == JADVOLNI_OK && r.place == 41 && i.low == UINT64_MAX && i.high == -1);
}

static void descriptions(void)
{
    jadvolni_fixed none = {0}, exact = {.places = 2}, german = {.places = 2, .point = ','};
    german.integer.digit_separator = '.';
    german.integer.integer_internal_digit_separator = 1;
    EXPECT(jadvolni_parse_i64_fixed, int64_t, none, "-12", JADVOLNI_OK, 3, -12);
    EXPECT(jadvolni_parse_i64_fixed, int64_t, none, "12.0", JADVOLNI_INVALID_DIGIT, 2, 77);
    EXPECT(jadvolni_parse_i64_fixed, int64_t, none, "", JADVOLNI_EMPTY, 0, 77);
    EXPECT(jadvolni_parse_i64_fixed, int64_t, exact, "-0.05", JADVOLNI_OK, 5, -5);
    EXPECT(jadvolni_parse_i64_fixed, int64_t, exact, "12.5", JADVOLNI_EMPTY, 4, 77);
    EXPECT(jadvolni_parse_i64_fixed, int64_t, german, "-1.234,50", JADVOLNI_OK, 9, -123450);
    EXPECT(jadvolni_parse_i64_fixed, int64_t, german, "1.234.50", JADVOLNI_EMPTY, 8, 77);
    EXPECT(jadvolni_parse_i64_fixed, int64_t, german, ",50", JADVOLNI_INVALID_DIGIT, 0, 77);
    german.integer.mantissa_radix = 10; /* now all of its fields count: no digit is required */
    EXPECT(jadvolni_parse_i64_fixed, int64_t, german, ",50", JADVOLNI_OK, 3, 50);

    CHECK(jadvolni_fixed_error(&none) == JADVOLNI_OK && jadvolni_fixed_error(&german) == JADVOLNI_OK);
    jadvolni_fixed wrong = exact;
    wrong.places = 39;
    CHECK(jadvolni_fixed_error(&wrong) == JADVOLNI_INVALID_PLACES);
    EXPECT(jadvolni_parse_i64_fixed, int64_t, wrong, "1", JADVOLNI_INVALID_PLACES, 0, 77);
    EXPECT(jadvolni_parse_u8_fixed_front, uint8_t, wrong, "x", JADVOLNI_INVALID_PLACES, 0, 77);
    wrong.point = '-';
    CHECK(jadvolni_fixed_error(&wrong) == JADVOLNI_INVALID_POINT);
    wrong.integer.literal_octal_zero = 1;
    CHECK(jadvolni_fixed_error(&wrong) == JADVOLNI_INVALID_FIXED_AFFIX);
    wrong.integer.literal_octal_zero = 0;
    wrong.integer.mantissa_radix = 16;
    CHECK(jadvolni_fixed_error(&wrong) == JADVOLNI_INVALID_FIXED_RADIX);
    wrong.integer.mantissa_radix = 37;
    CHECK(jadvolni_fixed_error(&wrong) == JADVOLNI_INVALID_MANTISSA_RADIX);
    wrong.integer.reserved[0] = 1;
    CHECK(jadvolni_fixed_error(&wrong) == JADVOLNI_UNKNOWN_FIELD);
    EXPECT(jadvolni_parse_i64_fixed, int64_t, wrong, "1", JADVOLNI_UNKNOWN_FIELD, 0, 77);
}

/* Whether a number of cents is written back as this, and read again as that number. */
static bool is_shown(int64_t value, const char *wanted)
{
    const jadvolni_fixed cents = {.places = 2};
    int64_t again = 77;
    char shown[24];
    uint64_t units = value < 0 ? 0 - (uint64_t)value : (uint64_t)value;
    snprintf(shown, sizeof shown, "%s%" PRIu64 ".%02" PRIu64, value < 0 ? "-" : "", units / 100,
             units % 100);
    return strcmp(shown, wanted) == 0
        && jadvolni_parse_i64_fixed(shown, strlen(shown), &cents, &again).status == JADVOLNI_OK
        && again == value;
}

static void written_back(void)
{
    CHECK(is_shown(1250, "12.50") && is_shown(-123450, "-1234.50") && is_shown(0, "0.00"));
    CHECK(is_shown(5, "0.05") && is_shown(-5, "-0.05") && is_shown(-100, "-1.00"));
    CHECK(is_shown(INT64_MAX, "92233720368547758.07") && is_shown(INT64_MIN, "-92233720368547758.08"));
}

static void lines(void)
{
    const char text[] = "12\n34\n5x";
    jadvolni_position at = jadvolni_line_column(text, 8, 7);
    CHECK(at.line == 2 && at.column == 1);
    at = jadvolni_line_column(text, 8, 2);
    CHECK(at.line == 0 && at.column == 2);
    at = jadvolni_line_column(text, 8, 99);
    CHECK(at.line == 2 && at.column == 2);
    at = jadvolni_line_column(NULL, 0, 0);
    CHECK(at.line == 0 && at.column == 0);
}

int main(void)
{
    each_type();
    descriptions();
    written_back();
    lines();
    return checked();
}
