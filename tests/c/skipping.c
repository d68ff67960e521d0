/* The calls of jadvolni.h for rows and for bad ones: where a row and its cells are, and a table whose bad rows are
 * skipped, worked by hand. */
#include "jadvolni.h"
#include "check.h"

#define STANDARD JADVOLNI_FORMAT_STANDARD

/* ---- where a row is */

/* Whether the text's row with this number begins and ends at these places. */
static int is_at(const char *text, size_t len, jadvolni_table table, size_t row, size_t start, size_t stop)
{
    char *bytes = exactly(text, len);
    jadvolni_row_result r = jadvolni_row_place(bytes, len, &table, row);
    free(bytes);
    if (r.status == JADVOLNI_OK && r.start == start && r.stop == stop) return 1;
    fprintf(stderr, "%s, from %zu to %zu\n", jadvolni_status_name(r.status), r.start, r.stop);
    return 0;
}

#define IS_AT(text, ...) CHECK(is_at(text, sizeof(text) - 1, __VA_ARGS__))

static void places(void)
{
    jadvolni_table lines = {.separator = ','}, quotes = {.separator = ',', .has_quotes = 1};
    jadvolni_table skips = {.separator = ',', .has_returns = 1, .skips_empty_rows = 1};
    IS_AT("1,2\nx,4\n5,6", lines, 0, 0, 4);
    IS_AT("1,2\nx,4\n5,6", lines, 1, 4, 8);
    IS_AT("1,2\nx,4\n5,6", lines, 2, 8, 11);
    IS_AT("1,2\nx,4\n5,6", lines, 3, 11, 11);
    IS_AT("1,2\n", lines, SIZE_MAX, 4, 4);
    IS_AT("", lines, 0, 0, 0);
    IS_AT("\n\n", lines, 1, 1, 2);
    IS_AT("\r\nx,2\r\n\r\n\r\n3,4", skips, 0, 2, 11);
    IS_AT("\r\nx,2\r\n\r\n\r\n3,4", skips, 1, 11, 14);
    IS_AT("1,\"\n\"\n2", quotes, 0, 0, 6);
    IS_AT("1,\"\n\"\n2", lines, 1, 4, 6);
    IS_AT("1,2\n3,\"4\n5,6\n", quotes, 1, 4, 13);
    CHECK(jadvolni_row_place(NULL, 0, &lines, 0).status == JADVOLNI_OK);
    static const size_t widths[] = {1, 2};
    jadvolni_table records = {.is_records = 1, .widths = widths, .width_count = 2}, wrong = {.is_records = 1};
    IS_AT("123456", records, 1, 3, 6);
    IS_AT("12345", records, 1, 3, 5);
    jadvolni_row_result r = jadvolni_row_place("1\n2", 3, &wrong, 1);
    CHECK(r.status == JADVOLNI_INVALID_TABLE && r.start == 0 && r.stop == 0);
    lines.reserved[8] = 1;
    CHECK(jadvolni_row_place("1\n2", 3, &lines, 1).status == JADVOLNI_INVALID_TABLE);
}

/* ---- where its cells are */

/* Whether the first row of a text has `cells` cells, and that of a column has this place and size. */
static int has_cell(const char *text, size_t len, jadvolni_table table, size_t count, size_t column, size_t start,
                    size_t size)
{
    char *bytes = exactly(text, len);
    jadvolni_cell_place cells[2] = {{99, 99}, {99, 99}};
    jadvolni_cells_result r = jadvolni_row_cells(bytes, len, &table, column, cells, 1);
    free(bytes);
    if (r.status == JADVOLNI_OK && r.count == count && cells[0].start == start && cells[0].size == size
        && cells[1].start == 99 && cells[1].size == 99)
        return 1;
    fprintf(stderr, "%s, %zu cells, at %zu with %zu bytes\n", jadvolni_status_name(r.status), r.count, cells[0].start,
            cells[0].size);
    return 0;
}

#define HAS_CELL(text, ...) CHECK(has_cell(text, sizeof(text) - 1, __VA_ARGS__))

static void cells_of_rows(void)
{
    jadvolni_table lines = {.separator = ';'}, quotes = {.separator = ';', .has_quotes = 1, .allows_returns = 1};
    HAS_CELL("ab;;\"c;d\"\r\n1;2;3", quotes, 3, 0, 0, 2);
    HAS_CELL("ab;;\"c;d\"\r\n1;2;3", quotes, 3, 1, 3, 0);
    HAS_CELL("ab;;\"c;d\"\r\n1;2;3", quotes, 3, 2, 4, 5);
    HAS_CELL("ab;;\"c;d\"\r\n1;2;3", quotes, 3, 3, 99, 99);
    HAS_CELL("ab;;\"c;d\"\r\n1;2;3", lines, 4, 3, 7, 3);
    HAS_CELL("a;\"b;c\nd", quotes, 2, 1, 2, 6);
    HAS_CELL("\nab", lines, 1, 0, 0, 0);
    HAS_CELL("", lines, 0, 0, 99, 99);
    static const size_t widths[] = {3, 2};
    jadvolni_table wide = {.widths = widths, .width_count = 2}, wrong = {.is_records = 1};
    HAS_CELL("007ab\n", wide, 2, 1, 3, 2);
    HAS_CELL("007a\n", wide, 1, 1, 99, 99);
    HAS_CELL("007abxyz\n", wide, 3, 2, 5, 3);
    wide.is_records = 1;
    HAS_CELL("007ab007cd", wide, 2, 1, 3, 2);
    jadvolni_cell_place cells[2] = {{99, 99}, {99, 99}};
    CHECK(jadvolni_row_cells("a;bc", 4, &lines, 0, cells, 2).count == 2 && cells[1].start == 2 && cells[1].size == 2);
    CHECK(jadvolni_row_cells("a;bc", 4, &lines, 0, NULL, 0).count == 2);
    jadvolni_cells_result r = jadvolni_row_cells("1", 1, &wrong, 0, cells, 1);
    CHECK(r.status == JADVOLNI_INVALID_TABLE && r.count == 0 && cells[0].start == 0 && cells[0].size == 1);
}

/* ---- bad rows */

/* Whether a call's result has these fields; it prints another one. */
static int answers(jadvolni_skipping_result r, uint32_t status, size_t column, size_t rows, size_t bad_rows, size_t place)
{
    if (r.status == status && r.column == column && r.rows == rows && r.bad_rows == bad_rows && r.place == place)
        return 1;
    fprintf(stderr, "%s, column %zu, rows %zu, bad rows %zu, place %zu\n", jadvolni_status_name(r.status), r.column,
            r.rows, r.bad_rows, r.place);
    return 0;
}

/* Whether a bad row has these fields, and zeros in the reserved ones. */
static int is_bad(jadvolni_bad_row bad, size_t row, uint32_t status, size_t column, size_t place, size_t start, size_t stop)
{
    static const uint8_t zeros[sizeof bad.reserved];
    if (bad.row == row && bad.status == status && bad.column == column && bad.place == place && bad.start == start
        && bad.stop == stop && memcmp(bad.reserved, zeros, sizeof zeros) == 0)
        return 1;
    fprintf(stderr, "row %zu, %s, column %zu, place %zu, from %zu to %zu\n", bad.row, jadvolni_status_name(bad.status),
            bad.column, bad.place, bad.start, bad.stop);
    return 0;
}

/* An int16_t, a cell that isn't read and a uint8_t, in room for three rows and for two bad ones. */
static int16_t left[3];
static uint8_t right[3], bits;
static jadvolni_bad_row bad[2];

static jadvolni_skipping_result read_part(const char *text, size_t len, bool is_last, jadvolni_table table, size_t capacity)
{
    for (int k = 0; k < 3; k++) left[k] = 77, right[k] = 99;
    memset(bad, 51, sizeof bad);
    bits = 0;
    char *bytes = exactly(text, len);
    jadvolni_table_column columns[] = {{.format = STANDARD, .i16 = {left, 3}}, {.format = {0}},
                                       {.format = STANDARD, .u8 = {right, 3}, .present = {&bits, 1}}};
    jadvolni_bad_row *known = exactly(bad, sizeof bad);
    jadvolni_skipping_result r =
        jadvolni_parse_table_skipping(bytes, len, is_last, &table, capacity, columns, 3, known, 2);
    memcpy(bad, known, sizeof bad);
    free(known);
    free(bytes);
    return r;
}

#define READ(text, table) read_part(text, sizeof(text) - 1, true, table, 3)
#define STORED(first, second, third, fourth) \
    (left[0] == (first) && right[0] == (second) && left[1] == (third) && right[1] == (fourth))

static void rows(void)
{
    jadvolni_table commas = {.separator = ','}, ledger = {.separator = ';', .has_returns = 1};
    CHECK(answers(READ("1,,2\n-3,a,4\n", commas), JADVOLNI_OK, 0, 2, 0, 12));
    CHECK(STORED(1, 2, -3, 4) && bits == 3 && bad[0].row != 0);
    CHECK(answers(READ("", commas), JADVOLNI_OK, 0, 0, 0, 0));
    /* the first row, one between, and the last, of which the number before the fault stays */
    CHECK(answers(READ("x,,2\n-3,,4\n5,,6\n", commas), JADVOLNI_OK, 0, 2, 1, 16));
    CHECK(STORED(-3, 4, 5, 6) && is_bad(bad[0], 0, JADVOLNI_INVALID_DIGIT, 0, 0, 0, 5));
    CHECK(answers(READ("1,,2\n-3,,256\n5,,\n", commas), JADVOLNI_OK, 0, 2, 1, 17));
    CHECK(STORED(1, 2, 5, 0) && bits == 1 && is_bad(bad[0], 1, JADVOLNI_OVERFLOW, 2, 11, 5, 13));
    CHECK(answers(READ("1,,2\n-3,,x", commas), JADVOLNI_OK, 0, 1, 1, 10));
    CHECK(STORED(1, 2, -3, 99) && left[2] == 77 && bits == 1 && is_bad(bad[0], 1, JADVOLNI_INVALID_DIGIT, 2, 9, 5, 10));
    /* all of them, with room for two */
    CHECK(answers(READ("x\n1,,2,\n,,\n", commas), JADVOLNI_OK, 0, 0, 3, 11));
    CHECK(is_bad(bad[0], 0, JADVOLNI_INVALID_DIGIT, 0, 0, 0, 2) && is_bad(bad[1], 1, JADVOLNI_TOO_MANY_CELLS, 3, 7, 2, 8));
    /* the ledger of the header */
    CHECK(answers(READ("365;rent;-80000\r\n366;x\r\n367;;7\r\n", ledger), JADVOLNI_OK, 0, 1, 2, 32));
    CHECK(is_bad(bad[0], 0, JADVOLNI_INVALID_DIGIT, 2, 9, 0, 17) && is_bad(bad[1], 1, JADVOLNI_TOO_FEW_CELLS, 2, 22, 17, 24));
    CHECK(answers(READ("1;;2\n3;;4\r\n", ledger), JADVOLNI_OK, 0, 1, 1, 11));
    CHECK(STORED(3, 4, 77, 99) && is_bad(bad[0], 0, JADVOLNI_MISSING_RETURN, 3, 4, 0, 5));
    /* a quote that isn't closed makes the rest one row */
    jadvolni_table quotes = {.separator = ',', .has_quotes = 1, .skips_empty_rows = 1};
    CHECK(answers(READ("\n1,,2\n\n3,,\"4\n5,,6\n", quotes), JADVOLNI_OK, 0, 1, 1, 18));
    CHECK(is_bad(bad[0], 1, JADVOLNI_MISPLACED_QUOTE, 2, 10, 7, 18));
    CHECK(answers(READ("\n1,,2\n\nx\n\n\n3,,\"4\"\n", quotes), JADVOLNI_OK, 0, 2, 1, 18));
    CHECK(STORED(1, 2, 3, 4) && is_bad(bad[0], 1, JADVOLNI_INVALID_DIGIT, 0, 7, 7, 11));
}

/* Reading stops after the last good row that is asked for, and another call continues there. */
static void parts(void)
{
    static const char text[] = "x,,\n1,,2\ny,,\n3,,4\n5,,6\nz,,\n";
    jadvolni_table commas = {.separator = ','};
    CHECK(answers(read_part(text, 27, true, commas, 1), JADVOLNI_OK, 0, 1, 1, 9));
    CHECK(is_bad(bad[0], 0, JADVOLNI_INVALID_DIGIT, 0, 0, 0, 4));
    CHECK(answers(read_part(text + 9, 18, true, commas, 1), JADVOLNI_OK, 0, 1, 1, 9));
    CHECK(STORED(3, 4, 77, 99) && is_bad(bad[0], 0, JADVOLNI_INVALID_DIGIT, 0, 0, 0, 4));
    CHECK(answers(read_part(text + 18, 9, true, commas, 1), JADVOLNI_OK, 0, 1, 0, 5));
    CHECK(answers(read_part(text + 23, 4, true, commas, 1), JADVOLNI_OK, 0, 0, 1, 4));
    CHECK(answers(read_part(text, 27, true, commas, 0), JADVOLNI_OK, 0, 0, 0, 0));
    CHECK(answers(read_part(text, 12, false, commas, 3), JADVOLNI_OK, 0, 1, 1, 9));
    CHECK(answers(read_part(text, 12, true, commas, 3), JADVOLNI_OK, 0, 1, 2, 12));
}

/* A fault of the table or of a column comes before those of the text, and nothing is written. */
static void faults_of_tables(void)
{
    uint32_t numbers[2] = {77, 77};
    jadvolni_table table = {.separator = ','};
    jadvolni_table_column columns[] = {{.format = {0}}, {.format = STANDARD, .u32 = {numbers, 2}}};
    jadvolni_bad_row known = {.row = 51};
    CHECK(answers(jadvolni_parse_table_skipping("x,1", 3, true, &table, 3, columns, 2, &known, 1),
                  JADVOLNI_INVALID_TABLE, 1, 0, 0, 0));
    columns[1].format.mantissa_radix = 1;
    CHECK(answers(jadvolni_parse_table_skipping("x,1", 3, true, &table, 2, columns, 2, &known, 1),
                  JADVOLNI_INVALID_MANTISSA_RADIX, 1, 0, 0, 0));
    columns[1].format = (jadvolni_format)STANDARD;
    table.reserved[0] = 1;
    CHECK(answers(jadvolni_parse_table_skipping("x,x", 3, true, &table, 2, columns, 2, &known, 1),
                  JADVOLNI_INVALID_TABLE, 0, 0, 0, 0));
    CHECK(numbers[0] == 77 && known.row == 51);
    table.reserved[0] = 0;
    CHECK(answers(jadvolni_parse_table_skipping("x,x", 3, true, &table, 2, columns, 2, NULL, 0), JADVOLNI_OK, 0, 0, 1, 3));
    CHECK(answers(jadvolni_parse_table_skipping(NULL, 0, true, &table, 0, NULL, 0, NULL, 0), JADVOLNI_OK, 0, 0, 0, 0));
    CHECK(numbers[0] == 77 && known.row == 51);
}

int main(void)
{
    places();
    cells_of_rows();
    rows();
    parts();
    faults_of_tables();
    return checked();
}
