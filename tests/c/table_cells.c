/* Fixed-point numbers and texts in the cells of tables, from C: rows worked by hand. */
#include "tables.h"

/* ---- amounts */

/* A column of amounts as "-1.234,50". */
static jadvolni_table_column amounts_into(int64_t *cents, size_t capacity)
{
    jadvolni_table_column column = {.point = ',', .places = 2, .i64 = {cents, capacity}};
    column.format.digit_separator = '.';
    column.format.integer_internal_digit_separator = 1;
    return column;
}

/* The least and the greatest number of a type in tenths, and one behind the greatest. */
#define EACH_TYPE(name, type, least, greatest, beyond, least_number, greatest_number)                      \
    do {                                                                                                   \
        static const type before[4] = {77, 77, 77, 77};                                                    \
        static const char text[] = least "\n" greatest "\n" beyond;                                        \
        type *numbers = exactly(before, sizeof before);                                                    \
        jadvolni_table table = {.separator = ','};                                                         \
        jadvolni_table_column column = {.places = 1, .name = {numbers, 4}}, same = column;                 \
        jadvolni_table_result r = read_table(text, &table, 4, &column, 1);                                 \
        CHECK(answers(r, JADVOLNI_OVERFLOW, 0, 2, sizeof text - 2));                                       \
        CHECK(numbers[0] == (least_number) && numbers[1] == (greatest_number));                            \
        CHECK(numbers[2] == 77 && numbers[3] == 77);                                                       \
        CHECK(memcmp(&column, &same, sizeof same) == 0);                                                   \
        free(numbers);                                                                                     \
    } while (0)

static void each_type(void)
{
    EACH_TYPE(u8, uint8_t, "0.0", "25.5", "25.6", 0, UINT8_MAX);
    EACH_TYPE(u16, uint16_t, "0.0", "6553.5", "6553.6", 0, UINT16_MAX);
    EACH_TYPE(u32, uint32_t, "0.0", "429496729.5", "429496729.6", 0, UINT32_MAX);
    EACH_TYPE(u64, uint64_t, "0.0", "1844674407370955161.5", "1844674407370955161.6", 0, UINT64_MAX);
    EACH_TYPE(i8, int8_t, "-12.8", "12.7", "12.8", INT8_MIN, INT8_MAX);
    EACH_TYPE(i16, int16_t, "-3276.8", "3276.7", "3276.8", INT16_MIN, INT16_MAX);
    EACH_TYPE(i32, int32_t, "-214748364.8", "214748364.7", "214748364.8", INT32_MIN, INT32_MAX);
    EACH_TYPE(i64, int64_t, "-922337203685477580.8", "922337203685477580.7", "922337203685477580.8", INT64_MIN,
              INT64_MAX);
}

/* Amounts with groups, also within quotes, beside an integer. */
static void amounts(void)
{
    int64_t cents[4] = {77, 77, 77, 77};
    uint8_t days[4] = {99, 99, 99, 99};
    jadvolni_table table = {.separator = ';', .has_quotes = 1};
    jadvolni_table_column columns[] = {amounts_into(cents, 4), {.format = STANDARD, .u8 = {days, 4}}};
    const char *text = "\"-1.234,50\";7\n\"0,05\";8\n12,00;9\n\"9.999.999,99\";1\n";
    CHECK(answers(read_table(text, &table, 4, columns, 2), JADVOLNI_OK, 0, 4, 48));
    CHECK(cents[0] == -123450 && cents[1] == 5 && cents[2] == 1200 && cents[3] == 999999999);
    CHECK(days[0] == 7 && days[1] == 8 && days[2] == 9 && days[3] == 1);
    /* The numbers before a wrong cell are there, those of its row too. */
    CHECK(answers(read_table("3,00;4\n5,00;x\n", &table, 4, columns, 2), JADVOLNI_INVALID_DIGIT, 1, 1, 12));
    CHECK(cents[0] == 300 && days[0] == 4 && cents[1] == 500 && days[1] == 8 && cents[2] == 1200);
    /* A column that comes behind: the widths of cells, and blanks around an amount. */
    static const size_t widths[] = {2, 9};
    jadvolni_table by_widths = {.allows_blanks = 1, .is_records = 1, .widths = widths, .width_count = 2};
    jadvolni_table_column behind[] = {columns[1], columns[0]};
    CHECK(answers(read_table("17-1.234,50 8  0,07   ", &by_widths, 4, behind, 2), JADVOLNI_OK, 0, 2, 22));
    CHECK(days[0] == 17 && cents[0] == -123450 && days[1] == 8 && cents[1] == 7);
}

/* What is wrong with an amount behind a text, between quotes and among blanks: its place is that of the byte in the text. */
static void wrong_amounts(void)
{
    static const struct {
        const char *text;
        uint8_t takes_fewer;
        uint32_t status;
        size_t place;
    } rows[] = {
        {"a;12,505", 0, JADVOLNI_INVALID_DIGIT, 7},
        {"a;\"12,505\"", 0, JADVOLNI_INVALID_DIGIT, 8},
        {"a;\" 12,505 \"\n", 1, JADVOLNI_INVALID_DIGIT, 9},
        {"a;12,5", 0, JADVOLNI_EMPTY, 6},
        {"a;12", 0, JADVOLNI_EMPTY, 4},
        {"a;12,", 1, JADVOLNI_EMPTY, 5},
        {"a;12.,50", 1, JADVOLNI_INVALID_DIGIT, 4},
        {"a;,50", 1, JADVOLNI_INVALID_DIGIT, 2},
        {"a;\n", 1, JADVOLNI_EMPTY, 2},
        {"a;1,00EUR", 0, JADVOLNI_INVALID_DIGIT, 6},
        {"a;1,0\"0", 0, JADVOLNI_MISPLACED_QUOTE, 5},
        {"a;92.233.720.368.547.758,08", 0, JADVOLNI_OVERFLOW, 26},
        /* The zeros that aren't written lead out of the type; the place is where reading stops. */
        {"a;-922.337.203.685.477.581", 1, JADVOLNI_UNDERFLOW, 26},
    };
    size_t k;
    for (k = 0; k < sizeof rows / sizeof *rows; k++) {
        int64_t cents[2] = {77, 77};
        jadvolni_table table = {.separator = ';', .has_quotes = 1, .allows_blanks = 1};
        jadvolni_table_column columns[] = {{.format = {0}}, amounts_into(cents, 2)};
        columns[1].takes_fewer = rows[k].takes_fewer;
        jadvolni_table_result r = read_table(rows[k].text, &table, 2, columns, 2);
        CHECK(answers(r, rows[k].status, 1, 0, rows[k].place) || (fprintf(stderr, "%s\n", rows[k].text), 0));
        CHECK(cents[0] == 77 && cents[1] == 77);
    }
}

/* Fewer places are taken where the column says so; amounts may be missing where it has bits. */
static void fewer_places(void)
{
    int64_t cents[4] = {77, 77, 77, 77};
    uint8_t bits = 0xF0;
    jadvolni_table table = {.separator = ';', .allows_blanks = 1, .has_quotes = 1};
    jadvolni_table_column column = amounts_into(cents, 4);
    column.takes_fewer = 1;
    CHECK(answers(read_table("12\n12,5\n-12,50\n", &table, 4, &column, 1), JADVOLNI_OK, 0, 3, 15));
    CHECK(cents[0] == 1200 && cents[1] == 1250 && cents[2] == -1250 && cents[3] == 77);
    column.present.bytes = &bits;
    column.present.size = 1;
    CHECK(answers(read_table("\" \"\n-0,01\n\t\n,5", &table, 4, &column, 1), JADVOLNI_INVALID_DIGIT, 0, 3, 12));
    CHECK(cents[0] == 0 && cents[1] == -1 && cents[2] == 0 && cents[3] == 77 && bits == 0xF2);
}

/* A fault of the room comes first, then one of a description, then one of the text. */
static void descriptions(void)
{
    int64_t cents[2] = {77, 77};
    jadvolni_table table = {.separator = ';'};
    jadvolni_table_column columns[] = {{.format = {0}}, amounts_into(cents, 2)};
#define REFUSED(status) CHECK(answers(read_table("x;x;x", &table, 2, columns, 2), status, 1, 0, 0))
    columns[1].places = 39;
    REFUSED(JADVOLNI_INVALID_PLACES);
    columns[1].places = 255;
    REFUSED(JADVOLNI_INVALID_PLACES);
    columns[1].point = '.'; /* as the separator */
    REFUSED(JADVOLNI_INVALID_POINT);
    columns[1].point = '0';
    REFUSED(JADVOLNI_INVALID_POINT);
    columns[1].format.base_suffix = 'h';
    REFUSED(JADVOLNI_INVALID_FIXED_AFFIX);
    columns[1].format.base_suffix = 0;
    columns[1].format.literal_prefixes = 1;
    columns[1].format.digit_separator = 0;
    REFUSED(JADVOLNI_INVALID_FIXED_AFFIX);
    columns[1].format.literal_prefixes = 0;
    columns[1].format.mantissa_radix = 16;
    REFUSED(JADVOLNI_INVALID_FIXED_RADIX);
    columns[1].format.digit_separator = 'a';
    REFUSED(JADVOLNI_INVALID_DIGIT_SEPARATOR);
    columns[1].format.mantissa_radix = 37;
    REFUSED(JADVOLNI_INVALID_MANTISSA_RADIX);
    for (size_t k = 0; k < sizeof columns[1].reserved; k++) {
        columns[1].reserved[k] = 1;
        REFUSED(JADVOLNI_UNKNOWN_FIELD);
        columns[1].reserved[k] = 0;
    }
    columns[1].format.reserved[0] = 1;
    REFUSED(JADVOLNI_UNKNOWN_FIELD);
    columns[1].i64.capacity = 1;
    REFUSED(JADVOLNI_INVALID_TABLE);
    CHECK(cents[0] == 77 && cents[1] == 77);
#undef REFUSED
}

/* Without places cells are integers, and neither point nor flag is looked at, but the reserved bytes are. */
static void without_places(void)
{
    int64_t numbers[2] = {77, 77};
    jadvolni_table table = {.separator = ';'};
    jadvolni_table_column column = {.format = STANDARD, .point = '-', .takes_fewer = 1, .i64 = {numbers, 2}};
    CHECK(answers(read_table("-12\n3.0\n", &table, 2, &column, 1), JADVOLNI_INVALID_DIGIT, 0, 1, 5));
    CHECK(numbers[0] == -12 && numbers[1] == 77);
    column.reserved[12] = 1;
    CHECK(answers(read_table("1", &table, 2, &column, 1), JADVOLNI_UNKNOWN_FIELD, 0, 0, 0));
    column.reserved[12] = 0;
    column.format.mantissa_radix = 0;
    CHECK(answers(read_table("1", &table, 2, &column, 1), JADVOLNI_INVALID_MANTISSA_RADIX, 0, 0, 0));
    /* With places the radix 0 is 10, and a digit is required; with the radix 10 the format says whether one is. */
    column = (jadvolni_table_column){.places = 2, .i64 = {numbers, 2}};
    CHECK(answers(read_table(".50", &table, 2, &column, 1), JADVOLNI_INVALID_DIGIT, 0, 0, 0));
    column.format.mantissa_radix = 10;
    CHECK(answers(read_table(".50", &table, 2, &column, 1), JADVOLNI_OK, 0, 1, 3));
    CHECK(numbers[0] == 50);
    /* A column without an array isn't read, whatever its places are. */
    column = (jadvolni_table_column){.point = '-', .places = 99, .reserved = {1}};
    CHECK(answers(read_table("x", &table, 2, &column, 1), JADVOLNI_OK, 0, 1, 1));
}

/* ---- texts */

/* Where a text stands is this. */
static int stands(jadvolni_cell_text text, size_t start, size_t size, uint8_t has_doubled_quotes)
{
    if (text.start == start && text.size == size && text.has_doubled_quotes == has_doubled_quotes) return 1;
    fprintf(stderr, "start %zu, size %zu, doubled %d\n", text.start, text.size, text.has_doubled_quotes);
    return 0;
}

#define NO_TEXT {51, 52, 53}
#define IS_BEFORE(text) stands(text, 51, 52, 53)

/* Texts beside a number: plain, within quotes, with doubled ones, with blanks, and of no bytes. */
static void texts(void)
{
    static const jadvolni_cell_text before[7] = {NO_TEXT, NO_TEXT, NO_TEXT, NO_TEXT, NO_TEXT, NO_TEXT, NO_TEXT};
    jadvolni_cell_text *found = exactly(before, sizeof before);
    int16_t numbers[7] = {0};
    jadvolni_table table = {.separator = ';', .has_quotes = 1, .allows_blanks = 1};
    jadvolni_table_column columns[] = {{.text = {found, 7}}, {.format = STANDARD, .i16 = {numbers, 7}}};
    const char *text = "a b;1\n\" x \";2\n\"say \"\"hi\"\"\";3\n  ;4\n;5\n\"\"; 6 \n\"a;\nb\";x";
    CHECK(answers(read_table(text, &table, 7, columns, 2), JADVOLNI_INVALID_DIGIT, 1, 6, 51));
    CHECK(stands(found[0], 0, 3, 0) && stands(found[1], 7, 3, 0) && stands(found[2], 15, 10, 1));
    CHECK(stands(found[3], 29, 2, 0) && stands(found[4], 34, 0, 0) && stands(found[5], 38, 0, 0));
    CHECK(stands(found[6], 45, 4, 0) && numbers[5] == 6 && numbers[6] == 0);
    char folded[8];
    CHECK(jadvolni_fold_quotes(text + found[2].start, found[2].size, folded, 8) == 8);
    CHECK(memcmp(folded, "say \"hi\"", 8) == 0);
    memcpy(found, before, sizeof before);
    CHECK(answers(read_table("a;1\nb\"c;2", &table, 7, columns, 2), JADVOLNI_MISPLACED_QUOTE, 0, 1, 5));
    CHECK(stands(found[0], 0, 1, 0) && IS_BEFORE(found[1]));
    CHECK(answers(read_table("\"a\"b;1", &table, 7, columns, 2), JADVOLNI_MISPLACED_QUOTE, 0, 0, 2));
    CHECK(answers(read_table("\"a;1\n", &table, 7, columns, 2), JADVOLNI_MISPLACED_QUOTE, 0, 0, 0));
    /* Where quotes have no meaning, they are bytes as any other. */
    table.has_quotes = 0;
    CHECK(answers(read_table("\"a\"\"b\";1\nx\"\";2", &table, 7, columns, 2), JADVOLNI_OK, 0, 2, 14));
    CHECK(stands(found[0], 0, 6, 0) && stands(found[1], 9, 3, 0) && IS_BEFORE(found[2]));
    free(found);
}

/* Texts of rows that end either way, of cells with widths, and of a part. */
static void ends_of_texts(void)
{
    static const size_t widths[] = {4, 2};
    jadvolni_cell_text found[3] = {NO_TEXT, NO_TEXT, NO_TEXT};
    uint8_t numbers[3];
    jadvolni_table either = {.separator = ';', .allows_returns = 1};
    jadvolni_table by_widths = {.allows_blanks = 1, .widths = widths, .width_count = 2};
    jadvolni_table_column columns[] = {{.text = {found, 3}}, {.format = STANDARD, .u8 = {numbers, 3}}};
    CHECK(answers(read_table("x\ry\r\nb\nc\r", &either, 3, columns, 1), JADVOLNI_OK, 0, 3, 9));
    CHECK(stands(found[0], 0, 3, 0) && stands(found[1], 5, 1, 0) && stands(found[2], 7, 2, 0));
    CHECK(answers(read_table("ab  12\n  \t  3", &by_widths, 3, columns, 2), JADVOLNI_OK, 0, 2, 13));
    CHECK(stands(found[0], 0, 4, 0) && stands(found[1], 7, 4, 0) && numbers[0] == 12 && numbers[1] == 3);
    CHECK(answers(jadvolni_parse_table("a;1\r\nbc;2", 9, false, &either, 3, columns, 2), JADVOLNI_OK, 0, 1, 5));
    CHECK(stands(found[0], 0, 1, 0) && stands(found[1], 7, 4, 0));
    CHECK(answers(jadvolni_parse_table("bc;2\n", 5, false, &either, 3, columns, 2), JADVOLNI_OK, 0, 1, 5));
    CHECK(stands(found[0], 0, 2, 0) && numbers[0] == 2);
}

/* A missing text is the mark, byte for byte, also within quotes, in a column with bits alone. */
static void missing_texts(void)
{
    jadvolni_cell_text found[5] = {NO_TEXT, NO_TEXT, NO_TEXT, NO_TEXT, NO_TEXT};
    uint8_t bits = 0xE3;
    jadvolni_table table = {.has_quotes = 1, .allows_blanks = 1, .missing = "NA", .missing_len = 2};
    jadvolni_table_column column = {.text = {found, 5}, .present = {&bits, 1}};
    CHECK(answers(read_table("NA\n\"NA\"\n NA\nna\n", &table, 5, &column, 1), JADVOLNI_OK, 0, 4, 15));
    CHECK(stands(found[0], 0, 0, 0) && stands(found[1], 0, 0, 0) && stands(found[2], 8, 3, 0));
    CHECK(stands(found[3], 12, 2, 0) && IS_BEFORE(found[4]) && bits == 0xEC);
    table.missing_len = 0;
    CHECK(answers(read_table("\n\"\"\n \n", &table, 5, &column, 1), JADVOLNI_OK, 0, 3, 6));
    CHECK(stands(found[0], 0, 0, 0) && stands(found[1], 0, 0, 0) && stands(found[2], 4, 1, 0) && bits == 0xEC);
    column.present.size = 0;
    CHECK(answers(read_table("a\n\n\"\"\n", &table, 5, &column, 1), JADVOLNI_OK, 0, 3, 6));
    CHECK(stands(found[1], 2, 0, 0) && stands(found[2], 4, 0, 0) && bits == 0xEC);
}

/* Of several arrays that have room an array of numbers comes before texts; and the room of both is looked at. */
static void arrays(void)
{
    int64_t wide = 77;
    uint8_t narrow = 77, bits = 0;
    jadvolni_cell_text found = NO_TEXT;
    jadvolni_table table = {.separator = ';'};
    jadvolni_table_column column = {.format = STANDARD, .i64 = {&wide, 1}, .u8 = {&narrow, 1}, .text = {&found, 1}};
    CHECK(answers(read_table("1", &table, 1, &column, 1), JADVOLNI_OK, 0, 1, 1));
    column.i64.capacity = 0;
    CHECK(answers(read_table("2", &table, 1, &column, 1), JADVOLNI_OK, 0, 1, 1));
    CHECK(wide == 1 && narrow == 2 && IS_BEFORE(found));
    /* For texts no field is looked at that says what numbers look like. */
    memset(&column.format, 0xFF, sizeof column.format);
    memset(column.reserved, 0xFF, sizeof column.reserved);
    column.point = column.places = column.takes_fewer = 0xFF;
    CHECK(answers(read_table("2", &table, 1, &column, 1), JADVOLNI_UNKNOWN_FIELD, 0, 0, 0));
    column.u8.capacity = 0;
    CHECK(answers(read_table("2", &table, 1, &column, 1), JADVOLNI_OK, 0, 1, 1));
    CHECK(narrow == 2 && stands(found, 0, 1, 0));
    CHECK(answers(read_table("2", &table, 2, &column, 1), JADVOLNI_INVALID_TABLE, 0, 0, 0));
    jadvolni_table_column nine = {.text = {&found, 9}, .present = {&bits, 1}}; /* which nothing is written to */
    CHECK(answers(read_table("2", &table, 9, &nine, 1), JADVOLNI_INVALID_TABLE, 0, 0, 0));
}

/* ---- both, with bad rows skipped */

/* What is known of a bad row is this. */
static int is_bad(jadvolni_bad_row bad, size_t row, uint32_t status, size_t column, size_t place, size_t start,
                  size_t stop)
{
    return bad.row == row && bad.status == status && bad.column == column && bad.place == place && bad.start == start
        && bad.stop == stop;
}

static void bad_rows(void)
{
    static const char text[] = "\"26.11.2026\";\"-1.234,50\";1\r\n27.11.2026;1,5;2\n28.11.2026;2,00;x\n"
                               "\"a\"\"b\";3,00;4";
    size_t len = sizeof text - 1;
    jadvolni_cell_text days[4] = {NO_TEXT, NO_TEXT, NO_TEXT, NO_TEXT};
    int64_t cents[4] = {77, 77, 77, 77};
    int32_t numbers[4] = {77, 77, 77, 77};
    jadvolni_bad_row bad[2];
    jadvolni_table table = {.separator = ';', .has_quotes = 1, .allows_returns = 1};
    jadvolni_table_column columns[] = {{.text = {days, 4}}, amounts_into(cents, 4),
                                       {.format = STANDARD, .i32 = {numbers, 4}}};
    jadvolni_skipping_result r = jadvolni_parse_table_skipping(text, len, true, &table, 4, columns, 3, bad, 2);
    CHECK(r.status == JADVOLNI_OK && r.column == 0 && r.rows == 2 && r.bad_rows == 2 && r.place == 76);
    CHECK(stands(days[0], 1, 10, 0) && stands(days[1], 64, 4, 1) && IS_BEFORE(days[2]) && IS_BEFORE(days[3]));
    CHECK(cents[0] == -123450 && cents[1] == 300 && cents[2] == 77 && cents[3] == 77);
    CHECK(numbers[0] == 1 && numbers[1] == 4 && numbers[2] == 77);
    CHECK(is_bad(bad[0], 1, JADVOLNI_EMPTY, 1, 42, 28, 45) && is_bad(bad[1], 2, JADVOLNI_INVALID_DIGIT, 2, 61, 45, 63));
    jadvolni_position at = jadvolni_line_column(text, len, bad[1].place);
    CHECK(at.line == 2 && at.column == 16);
    jadvolni_row_result row = jadvolni_row_place(text, len, &table, bad[1].row);
    CHECK(row.status == JADVOLNI_OK && row.start == 45 && row.stop == 63);
    columns[1].places = 39;
    r = jadvolni_parse_table_skipping(text, len, true, &table, 4, columns, 3, bad, 2);
    CHECK(r.status == JADVOLNI_INVALID_PLACES && r.column == 1 && r.rows == 0 && r.bad_rows == 0 && r.place == 0);
}

int main(void)
{
    each_type();
    amounts();
    wrong_amounts();
    fewer_places();
    descriptions();
    without_places();
    texts();
    ends_of_texts();
    missing_texts();
    arrays();
    bad_rows();
    return checked();
}
