/* The calls of jadvolni.h that read columns: each type, each status, each end of the room, and hostile columns. */
#include "jadvolni.h"
#include "check.h"

static const jadvolni_format STANDARD = JADVOLNI_FORMAT_STANDARD;

/* A column of a type between commas: two numbers of it and one wrong field, with room for four. */
#define EACH_TYPE(name, type, least, greatest, at)                                                \
    do {                                                                                          \
        static const type before[4] = {77, 77, 77, 77};                                           \
        static const char text[] = #least "," #greatest ",x";                                     \
        char *bytes = exactly(text, sizeof text - 1);                                             \
        type *values = exactly(before, sizeof before);                                            \
        size_t count = 9;                                                                         \
        jadvolni_result r = jadvolni_parse_##name##_column(bytes, sizeof text - 1, ',', &STANDARD,      \
                                                     values, 4, &count);                          \
        CHECK(r.status == JADVOLNI_INVALID_DIGIT && r.place == (at) && count == 2);               \
        CHECK(jadvolni_field_start(bytes, r.place, ',') == (at));                                 \
        CHECK(values[0] == (type)strtoll(#least, NULL, 10));                                      \
        CHECK(values[1] == (type)strtoull(#greatest, NULL, 10));                                  \
        CHECK(values[2] == 77 && values[3] == 77);                                                \
        r = jadvolni_parse_##name##_column(bytes, sizeof text - 3, ',', &STANDARD, values, 4, &count);  \
        CHECK(r.status == JADVOLNI_OK && r.place == (at)-1 && count == 2);                        \
        free(bytes);                                                                              \
        free(values);                                                                             \
    } while (0)

static void each_type(void)
{
    OF_EACH_TYPE(EACH_TYPE);
}

/* Checks what a column of int16_t answers, where there is room for three and 77 stands in each place. */
#define EXPECT(text, separator, format, wanted_status, wanted_place, wanted_count, first, second)  \
    do {                                                                                           \
        int16_t values[3] = {77, 77, 77};                                                          \
        size_t count = 9;                                                                          \
        char *bytes = exactly(text, sizeof(text) - 1);                                             \
        jadvolni_result r = jadvolni_parse_i16_column(bytes, sizeof(text) - 1, separator, &(format),     \
                                                values, 3, &count);                                \
        free(bytes);                                                                               \
        CHECK(r.status == (wanted_status) && r.place == (wanted_place));                           \
        CHECK(count == (wanted_count));                                                            \
        CHECK(values[0] == (first) && values[1] == (second) && values[2] == 77);                   \
    } while (0)

/* Each fault of a text in the second field, with its place counted from the start of the text. */
static void faults_of_fields(void)
{
    jadvolni_format json = JADVOLNI_FORMAT_JSON, with_sign = JADVOLNI_FORMAT_STANDARD;
    with_sign.required_mantissa_sign = 1;
    EXPECT("1,32768,x", ',', STANDARD, JADVOLNI_OVERFLOW, 6, 1, 1, 77);
    EXPECT("1,-32769,x", ',', STANDARD, JADVOLNI_UNDERFLOW, 7, 1, 1, 77);
    EXPECT("1,2 ,3", ',', STANDARD, JADVOLNI_INVALID_DIGIT, 3, 1, 1, 77);
    EXPECT("1,,3", ',', STANDARD, JADVOLNI_EMPTY, 2, 1, 1, 77);
    EXPECT("1,-,3", ',', STANDARD, JADVOLNI_EMPTY, 3, 1, 1, 77);
    EXPECT("+1,2", ',', with_sign, JADVOLNI_MISSING_SIGN, 3, 1, 1, 77);
    EXPECT("1,+2", ',', json, JADVOLNI_INVALID_POSITIVE_SIGN, 2, 1, 1, 77);
    EXPECT("1,-02", ',', json, JADVOLNI_INVALID_LEADING_ZEROS, 3, 1, 1, 77);
}

/* An invalid format is reported before all else, also of an empty text and of no room, and nothing is read. */
static void expect_invalid(const jadvolni_format *format, uint32_t status)
{
    size_t count = 9;
    jadvolni_result r = jadvolni_parse_i16_column(NULL, 0, ',', format, NULL, 0, &count);
    CHECK(r.status == status && r.place == 0 && count == 0);
    EXPECT("1,x", ',', *format, status, 0, 0, 77, 77);
}

/* The rules that a format may break, from the last that is looked at to the first. */
static void faults_of_formats(void)
{
    jadvolni_format format = JADVOLNI_FORMAT_STANDARD;
    format.base_prefix = 'x';
    format.literal_prefixes = 1;
    expect_invalid(&format, JADVOLNI_INVALID_LITERAL_PREFIXES);
    format.digit_separator = 'X';
    expect_invalid(&format, JADVOLNI_INVALID_PUNCTUATION);
    format.base_suffix = 0x80;
    expect_invalid(&format, JADVOLNI_INVALID_BASE_SUFFIX);
    format.base_prefix = '9';
    expect_invalid(&format, JADVOLNI_INVALID_BASE_PREFIX);
    format.digit_separator = '+';
    expect_invalid(&format, JADVOLNI_INVALID_DIGIT_SEPARATOR);
    format.mantissa_radix = 1;
    expect_invalid(&format, JADVOLNI_INVALID_MANTISSA_RADIX);
    format.reserved[1] = 1;
    expect_invalid(&format, JADVOLNI_UNKNOWN_FIELD);
}

/* Any byte parts fields, also a digit, a sign and the format's own separator. */
static void separators(void)
{
    jadvolni_format grouped = JADVOLNI_FORMAT_STANDARD, prefixed = JADVOLNI_FORMAT_STANDARD;
    jadvolni_format hexadecimal = JADVOLNI_FORMAT_STANDARD;
    grouped.digit_separator = '_';
    grouped.integer_internal_digit_separator = 1;
    prefixed.base_prefix = 'x';
    hexadecimal.mantissa_radix = 16;
    EXPECT("1020", '0', STANDARD, JADVOLNI_OK, 4, 2, 1, 2);
    EXPECT("3+4", '+', STANDARD, JADVOLNI_OK, 3, 2, 3, 4);
    EXPECT("3--4", '-', STANDARD, JADVOLNI_EMPTY, 2, 1, 3, 77);
    EXPECT("1_2", '_', grouped, JADVOLNI_OK, 3, 2, 1, 2);
    EXPECT("1_2,3", ',', grouped, JADVOLNI_OK, 5, 2, 12, 3);
    EXPECT("0x1,2", 'x', prefixed, JADVOLNI_INVALID_DIGIT, 3, 1, 0, 77);
    EXPECT("FF,10,", ',', hexadecimal, JADVOLNI_OK, 6, 2, 255, 16);
    EXPECT("5\000-32768", 0, STANDARD, JADVOLNI_OK, 8, 2, 5, -32768);
    EXPECT("1\0002", 0, STANDARD, JADVOLNI_OK, 3, 2, 1, 2);
    EXPECT("1\3772", 255, STANDARD, JADVOLNI_OK, 3, 2, 1, 2);
    EXPECT("12", ',', STANDARD, JADVOLNI_OK, 2, 1, 12, 77);
    EXPECT(",,,,", ',', STANDARD, JADVOLNI_EMPTY, 0, 0, 77, 77);
    EXPECT("1,2,", ',', STANDARD, JADVOLNI_OK, 4, 2, 1, 2);
}

/* A text of no bytes may be NULL, and so may an array without room. */
static void no_room(void)
{
    uint64_t value = 77;
    size_t count = 9;
    jadvolni_result r = jadvolni_parse_u64_column(NULL, 0, ',', &STANDARD, &value, 1, &count);
    CHECK(r.status == JADVOLNI_OK && r.place == 0 && count == 0 && value == 77);
    count = 9;
    r = jadvolni_parse_u64_column("x", 1, ',', &STANDARD, NULL, 0, &count);
    CHECK(r.status == JADVOLNI_OK && r.place == 0 && count == 0);
    r = jadvolni_parse_u64_column("5,x", 3, ',', &STANDARD, &value, 1, &count);
    CHECK(r.status == JADVOLNI_OK && r.place == 2 && count == 1 && value == 5);
    r = jadvolni_parse_u64_column("6,", 2, ',', &STANDARD, &value, 1, &count);
    CHECK(r.status == JADVOLNI_OK && r.place == 2 && count == 1 && value == 6);
    r = jadvolni_parse_u64_column("x,7", 3, ',', &STANDARD, &value, 1, &count);
    CHECK(r.status == JADVOLNI_INVALID_DIGIT && r.place == 0 && count == 0 && value == 6);
}

/* A text is read by pieces of each size, and the fault of its last field has its place in the text. */
static void pieces(void)
{
    static const char text[] = "10\n200\n3\n\n";
    size_t len = sizeof text - 1;
    for (size_t room = 1; room <= 5; room++) {
        uint8_t values[5];
        size_t from = 0, read = 0, count;
        jadvolni_result r;
        do {
            r = jadvolni_parse_u8_column(text + from, len - from, '\n', &STANDARD, values, room, &count);
            CHECK(count <= room);
            read += count;
            from += r.place;
        } while (r.status == JADVOLNI_OK && from < len);
        CHECK(r.status == JADVOLNI_EMPTY && read == 3 && from == 9);
    }
}

/* A wrong field at each place of a column, and none that is lost. */
static void each_field_wrong(void)
{
    enum { FIELDS = 40 };
    for (size_t bad = 0; bad < FIELDS; bad++) {
        char text[3 * FIELDS];
        uint32_t values[FIELDS];
        size_t count;
        for (size_t k = 0; k < FIELDS; k++) {
            char field[4];
            snprintf(field, sizeof field, "%02u,", (unsigned)k % 100);
            memcpy(text + 3 * k, k == bad ? "1x," : field, 3);
            values[k] = 77;
        }
        jadvolni_result r = jadvolni_parse_u32_column(text, sizeof text, ',', &STANDARD, values, FIELDS, &count);
        CHECK(r.status == JADVOLNI_INVALID_DIGIT && r.place == 3 * bad + 1 && count == bad);
        CHECK(jadvolni_field_start(text, r.place, ',') == 3 * bad);
        for (size_t k = 0; k < FIELDS; k++)
            CHECK(values[k] == (k < bad ? k : 77));
    }
}

/* 16 MiB without a separator, of separators alone, and of numbers. */
static void large(void)
{
    size_t len = (size_t)1 << 24, count;
    char *text = malloc(len);
    uint64_t *values = malloc(len / 2 * sizeof *values), value = 77, sum = 0;
    if (!text || !values) abort();
    memset(text, '9', len);
    jadvolni_result r = jadvolni_parse_u64_column(text, len, ',', &STANDARD, &value, 1, &count);
    CHECK(r.status == JADVOLNI_OVERFLOW && r.place == 19 && count == 0 && value == 77);
    memset(text, '0', len);
    r = jadvolni_parse_u64_column(text, len, ',', &STANDARD, &value, 1, &count);
    CHECK(r.status == JADVOLNI_OK && r.place == len && count == 1 && value == 0);
    memset(text, ',', len);
    r = jadvolni_parse_u64_column(text, len, ',', &STANDARD, &value, 1, &count);
    CHECK(r.status == JADVOLNI_EMPTY && r.place == 0 && count == 0);
    for (size_t k = 0; k < len; k += 2) text[k] = (char)('0' + k / 2 % 10);
    r = jadvolni_parse_u64_column(text, len, ',', &STANDARD, values, len / 2, &count);
    CHECK(r.status == JADVOLNI_OK && r.place == len && count == len / 2);
    for (size_t k = 0; k < count; k++) sum += values[k] != k % 10;
    CHECK(sum == 0);
    free(text);
    free(values);
}

/* A part of a text: its whole fields, and all of them where it is the last. */
static void parts(void)
{
    int16_t values[3] = {77, 77, 77};
    size_t count;
    jadvolni_result r =
        jadvolni_parse_i16_column_part("12,-7,3", 7, false, ',', &STANDARD, values, 3, &count);
    CHECK(r.status == JADVOLNI_OK && r.place == 6 && count == 2);
    CHECK(values[0] == 12 && values[1] == -7 && values[2] == 77);
    r = jadvolni_parse_i16_column_part("35", 2, true, ',', &STANDARD, values, 3, &count);
    CHECK(r.status == JADVOLNI_OK && r.place == 2 && count == 1 && values[0] == 35);
    r = jadvolni_parse_i16_column_part("1,2,3", 5, false, ',', &STANDARD, values, 1, &count);
    CHECK(r.status == JADVOLNI_OK && r.place == 2 && count == 1 && values[0] == 1);
    r = jadvolni_parse_i16_column_part("1,x,3", 5, false, ',', &STANDARD, values, 3, &count);
    CHECK(r.status == JADVOLNI_INVALID_DIGIT && r.place == 2 && count == 1);
    r = jadvolni_parse_i16_column_part("x", 1, false, ',', &STANDARD, values, 3, &count);
    CHECK(r.status == JADVOLNI_OK && r.place == 0 && count == 0);
    r = jadvolni_parse_i16_column_part(NULL, 0, true, ',', &STANDARD, NULL, 0, &count);
    CHECK(r.status == JADVOLNI_OK && r.place == 0 && count == 0);
}

/* What a file holds, read block by block. */
static struct numbers {
    size_t count;
    int64_t sum;
} numbers;

static void read_lines(const char *text, size_t len)
{
    int64_t values[1000];
    size_t at = 0, count;
    while (at < len) {
        jadvolni_result r =
            jadvolni_parse_i64_column(text + at, len - at, '\n', &STANDARD, values, 1000, &count);
        if (r.status != JADVOLNI_OK) return;
        for (size_t k = 0; k < count; k++) numbers.sum += values[k];
        numbers.count += count;
        at += r.place;
    }
}

/* The loop of the header. Answers whether the file could be read. */
static int read_in_blocks(FILE *file, char *block, size_t size)
{
    size_t kept = 0, got;
    while ((got = fread(block + kept, 1, size - kept, file)) > 0) {
        size_t whole = jadvolni_field_start(block, kept + got, '\n');
        read_lines(block, whole);
        kept += got - whole;
        memmove(block, block + whole, kept);
    }
    if (ferror(file) || kept == size) return 0; // or a line is longer than the block
    read_lines(block, kept);                    // a last line without a line feed
    return 1;
}

/* A file of 100,000 lines in blocks of 64 KiB, and in those of a few bytes, is each line once. */
static void blocks(void)
{
    static const size_t sizes[] = {1, 2, 5, 6, 7, 8, 9, 64, 4096, 65535, 65536, 1 << 20};
    static char block[1 << 20];
    enum { LINES = 100000 };
    FILE *file = tmpfile();
    if (!file) abort();
    for (int line = 1; line < LINES; line++) fprintf(file, "%d\n", line);
    fprintf(file, "%d", LINES); /* without a line feed */
    for (size_t k = 0; k < sizeof sizes / sizeof *sizes; k++) {
        rewind(file);
        numbers.count = 0;
        numbers.sum = 0;
        int fits = read_in_blocks(file, block, sizes[k]);
        CHECK(fits == (sizes[k] > 6)); /* the last line has six bytes */
        CHECK(!fits || (numbers.count == LINES && numbers.sum == (int64_t)LINES * (LINES + 1) / 2));
    }
    fclose(file);
}

/* The lines that the header's comment reads by a table of one column: with either end, blanks and no number. */
static void columns_of_tables(void)
{
    static const char text[] = "12.50\r\n\n -0.05\t\n\r\n1000.00";
    int64_t values[6] = {77, 77, 77, 77, 77, 77};
    uint8_t bits[1] = {0xFF};
    char *bytes = exactly(text, sizeof text - 1);
    jadvolni_table lines = {.separator = '\n', .allows_returns = 1, .allows_blanks = 1};
    jadvolni_table_column cents = {.places = 2, .i64 = {values, 6}, .present = {bits, 1}};
    jadvolni_table_result r = jadvolni_parse_table(bytes, sizeof text - 1, true, &lines, 6, &cents, 1);
    free(bytes);
    CHECK(r.status == JADVOLNI_OK && r.rows == 5 && r.place == 25 && bits[0] == 0xF5);
    CHECK(values[0] == 1250 && values[1] == 0 && values[2] == -5 && values[3] == 0 && values[4] == 100000);
    CHECK(values[5] == 77);
}

/* Between line feeds no byte of a table parts cells: each is one of its line. */
static void bytes_of_lines(void)
{
    int byte;
    for (byte = 0; byte < 256; byte++) {
        uint8_t values[2] = {77, 77};
        char text[] = "1?2\n3\n";
        jadvolni_table lines = {.separator = '\n'};
        jadvolni_table_column column = {.format = JADVOLNI_FORMAT_STANDARD, .u8 = {values, 2}};
        if (byte == '\n' || (byte >= '0' && byte <= '9')) continue;
        text[1] = (char)byte;
        jadvolni_table_result r = jadvolni_parse_table(text, 6, true, &lines, 2, &column, 1);
        CHECK(r.status == JADVOLNI_INVALID_DIGIT && r.column == 0 && r.rows == 0 && r.place == 1);
        CHECK(values[0] == 77 && values[1] == 77);
    }
}

int main(void)
{
    columns_of_tables();
    bytes_of_lines();
    each_type();
    faults_of_fields();
    faults_of_formats();
    separators();
    no_room();
    pieces();
    each_field_wrong();
    large();
    parts();
    blocks();
    return checked();
}
