/* The call of jadvolni.h that reads tables: each type, each status, each argument wrong, and hostile columns. */
#include "tables.h"

/* A table of one column of a type: its least and greatest number and a cell that is none, in room for four. */
#define EACH_TYPE(name, type, least, greatest, at)                                                      \
    do {                                                                                                \
        static const type before[4] = {77, 77, 77, 77};                                                 \
        static const char text[] = #least "\n" #greatest "\nx";                                         \
        char *bytes = exactly(text, sizeof text - 1);                                                   \
        type *numbers = exactly(before, sizeof before);                                                 \
        jadvolni_table table = {.separator = ','};                                                      \
        jadvolni_table_column column = {.format = STANDARD, .name = {numbers, 4}}, same = column;       \
        jadvolni_table_result r = jadvolni_parse_table(bytes, sizeof text - 1, true, &table, 4, &column, 1); \
        CHECK(answers(r, JADVOLNI_INVALID_DIGIT, 0, 2, at));                                            \
        CHECK(numbers[0] == (type)strtoll(#least, NULL, 10));                                           \
        CHECK(numbers[1] == (type)strtoull(#greatest, NULL, 10));                                       \
        CHECK(numbers[2] == 77 && numbers[3] == 77);                                                    \
        r = jadvolni_parse_table(bytes, sizeof text - 1, false, &table, 4, &column, 1);                 \
        CHECK(answers(r, JADVOLNI_OK, 0, 2, at));                                                       \
        CHECK(memcmp(&column, &same, sizeof same) == 0);                                                \
        free(bytes);                                                                                    \
        free(numbers);                                                                                  \
    } while (0)

static void each_type(void)
{
    OF_EACH_TYPE(EACH_TYPE);
}

/* Checks what a table of an int16_t, a cell that isn't read and a uint8_t answers, in room for three rows. */
#define EXPECT(text, table, wanted_status, wanted_column, wanted_rows, wanted_place, first, second, third, fourth) \
    do {                                                                                                           \
        int16_t left[3] = {77, 77, 77};                                                                            \
        uint8_t right[3] = {99, 99, 99};                                                                           \
        jadvolni_table_column columns[] = {{.format = STANDARD, .i16 = {left, 3}}, {.format = {0}},                 \
                                           {.format = STANDARD, .u8 = {right, 3}}};                                \
        char *bytes = exactly(text, sizeof(text) - 1);                                                             \
        jadvolni_table_result r = jadvolni_parse_table(bytes, sizeof(text) - 1, true, &(table), 3, columns, 3);      \
        free(bytes);                                                                                               \
        CHECK(answers(r, wanted_status, wanted_column, wanted_rows, wanted_place));                                \
        CHECK(left[0] == (first) && right[0] == (second) && left[1] == (third) && right[1] == (fourth));           \
        CHECK(left[2] == 77 && right[2] == 99);                                                                    \
    } while (0)

static void faults_of_cells(void)
{
    jadvolni_table commas = {.separator = ','}, returns = {.separator = ';', .has_returns = 1};
    EXPECT("1,,2\n-3,\r\"\0,4\n", commas, JADVOLNI_OK, 0, 2, 14, 1, 2, -3, 4);
    EXPECT("1;a,b;2\r\n-3;;4", returns, JADVOLNI_OK, 0, 2, 14, 1, 2, -3, 4);
    EXPECT("", commas, JADVOLNI_OK, 0, 0, 0, 77, 99, 77, 99);
    EXPECT("1,,2\n32768,,x\n", commas, JADVOLNI_OVERFLOW, 0, 1, 9, 1, 2, 77, 99);
    EXPECT("1,,2\n-3,,256", commas, JADVOLNI_OVERFLOW, 2, 1, 11, 1, 2, -3, 99);
    EXPECT("1,,2\n-3,,-4", commas, JADVOLNI_INVALID_DIGIT, 2, 1, 9, 1, 2, -3, 99);
    EXPECT("1,,2\n-32769,,4", commas, JADVOLNI_UNDERFLOW, 0, 1, 10, 1, 2, 77, 99);
    EXPECT("1,,\n", commas, JADVOLNI_EMPTY, 2, 0, 3, 1, 99, 77, 99);
    EXPECT("1,,2\n-3,4\n", commas, JADVOLNI_TOO_FEW_CELLS, 2, 1, 9, 1, 2, -3, 99);
    EXPECT("1,,2\n\n", commas, JADVOLNI_EMPTY, 0, 1, 5, 1, 2, 77, 99);
    EXPECT("1,,2,\n", commas, JADVOLNI_TOO_MANY_CELLS, 3, 0, 5, 1, 2, 77, 99);
    EXPECT("1;;2\n", returns, JADVOLNI_MISSING_RETURN, 3, 0, 4, 1, 2, 77, 99);
    EXPECT("1,,2\r\n", commas, JADVOLNI_INVALID_DIGIT, 2, 0, 4, 1, 99, 77, 99);
    EXPECT("1;;2\r\r\n", returns, JADVOLNI_INVALID_DIGIT, 2, 0, 4, 1, 99, 77, 99);
}

/* Rows that end either way: a return in front of the line feed is no byte of the row, any other is one of its cell. */
static void line_ends(void)
{
    jadvolni_table either = {.separator = ';', .allows_returns = 1};
    EXPECT("1;a;2\r\n-3;;4\n", either, JADVOLNI_OK, 0, 2, 13, 1, 2, -3, 4);
    EXPECT("1;;2\n-3;;4\r\n", either, JADVOLNI_OK, 0, 2, 12, 1, 2, -3, 4);
    EXPECT("1;;2\r\n-3;;4", either, JADVOLNI_OK, 0, 2, 11, 1, 2, -3, 4);
    EXPECT("1\r;;2\n", either, JADVOLNI_INVALID_DIGIT, 0, 0, 1, 77, 99, 77, 99);
    EXPECT("1;;2\r\r\n", either, JADVOLNI_INVALID_DIGIT, 2, 0, 4, 1, 99, 77, 99);
    EXPECT("1;;2\n-3;;4\r", either, JADVOLNI_INVALID_DIGIT, 2, 1, 10, 1, 2, -3, 99);
    /* In front of a long row too, whose first cell is empty. */
    EXPECT("1;a;2\r\n-3;;4\n;................................................................................",
           either, JADVOLNI_EMPTY, 0, 2, 13, 1, 2, -3, 4);
    either.skips_empty_rows = 1;
    EXPECT("\r\n\n1;;2\r\n", either, JADVOLNI_OK, 0, 1, 9, 1, 2, 77, 99);
    either.has_returns = 1;
    EXPECT("1;;2\n", either, JADVOLNI_MISSING_RETURN, 3, 0, 4, 1, 2, 77, 99);
}

/* A fault of the table or of a column comes before those of the text, and nothing is written. */
static void faults_of_tables(void)
{
    uint32_t first[2] = {77, 77}, second[2] = {77, 77};
    jadvolni_table table = {.separator = ','};
    jadvolni_table_column columns[] = {{.format = STANDARD, .u32 = {first, 2}}, {.format = STANDARD, .u32 = {second, 2}}};
    for (size_t k = 0; k < sizeof table.reserved; k++) {
        table.reserved[k] = 1;
        CHECK(answers(jadvolni_parse_table("1,2", 3, true, &table, 2, columns, 2), JADVOLNI_INVALID_TABLE, 0, 0, 0));
        table.reserved[k] = 0;
    }
    CHECK(answers(jadvolni_parse_table("1,2", 3, true, &table, 3, columns, 2), JADVOLNI_INVALID_TABLE, 0, 0, 0));
    columns[1].u32.capacity = 1;
    CHECK(answers(jadvolni_parse_table("1,2", 3, true, &table, 2, columns, 2), JADVOLNI_INVALID_TABLE, 1, 0, 0));
    columns[1].format.mantissa_radix = 37;
    CHECK(answers(jadvolni_parse_table("1,2", 3, true, &table, 1, columns, 2), JADVOLNI_INVALID_MANTISSA_RADIX, 1, 0, 0));
    columns[1].format.reserved[sizeof columns[1].format.reserved - 1] = 1;
    CHECK(answers(jadvolni_parse_table("1,2", 3, true, &table, 1, columns, 2), JADVOLNI_UNKNOWN_FIELD, 1, 0, 0));
    columns[0].format.digit_separator = '-';
    CHECK(answers(jadvolni_parse_table("x,2", 3, true, &table, 1, columns, 2), JADVOLNI_INVALID_DIGIT_SEPARATOR, 0, 0, 0));
    CHECK(first[0] == 77 && second[0] == 77);
    /* There are as many widths as columns, or none, and records have some. The table's fault comes before those of columns. */
    static const size_t widths[3] = {1, 1, 1};
    for (unsigned flag = 0; flag < 256; flag += 255) {
        for (size_t count = 0; count <= 3; count++) {
            jadvolni_table fixed = {.separator = ',', .is_records = (uint8_t)flag, .widths = widths, .width_count = count};
            uint32_t fits = count == 2 || (count == 0 && flag == 0);
            uint32_t wanted = fits ? JADVOLNI_INVALID_DIGIT_SEPARATOR : JADVOLNI_INVALID_TABLE;
            CHECK(answers(jadvolni_parse_table("12", 2, true, &fixed, 1, columns, 2), wanted, 0, 0, 0));
        }
        jadvolni_table fixed = {.is_records = (uint8_t)flag, .widths = widths, .width_count = 1};
        CHECK(answers(jadvolni_parse_table("", 0, true, &fixed, 0, NULL, 0), JADVOLNI_INVALID_TABLE, 0, 0, 0));
    }
    table.is_records = 1;
    CHECK(answers(jadvolni_parse_table("", 0, true, &table, 0, NULL, 0), JADVOLNI_INVALID_TABLE, 0, 0, 0));
    table.is_records = 0;
    CHECK(first[0] == 77 && second[0] == 77);
}

/* A column without room and with a format was meant to be read; without a format it isn't. */
static void columns_without_room(void)
{
    uint32_t numbers[2] = {77, 77};
    int64_t wide[2] = {77, 77};
    jadvolni_table table = {.separator = ','};
    jadvolni_table_column columns[] = {{.format = STANDARD, .u32 = {numbers, 2}}, {.format = STANDARD}};
    CHECK(answers(jadvolni_parse_table("1,2\n", 4, true, &table, 2, columns, 2), JADVOLNI_INVALID_TABLE, 1, 0, 0));
    columns[1].i64.numbers = wide;
    CHECK(answers(jadvolni_parse_table("1,2\n", 4, true, &table, 2, columns, 2), JADVOLNI_INVALID_TABLE, 1, 0, 0));
    CHECK(answers(jadvolni_parse_table("", 0, false, &table, 1, columns, 2), JADVOLNI_INVALID_TABLE, 1, 0, 0));
    CHECK(answers(jadvolni_parse_table("1,2\n", 4, true, &table, 0, columns, 2), JADVOLNI_OK, 0, 0, 0));
    columns[0].u32.capacity = 0;
    CHECK(answers(jadvolni_parse_table("1,2\n", 4, true, &table, 2, columns, 2), JADVOLNI_INVALID_TABLE, 0, 0, 0));
    CHECK(answers(jadvolni_parse_table("1,2\n", 4, true, &table, 0, columns, 2), JADVOLNI_OK, 0, 0, 0));
    columns[0].u32.capacity = 2;
    for (unsigned radix = 1; radix < 256; radix++) {
        columns[1].format = (jadvolni_format){.mantissa_radix = (uint8_t)radix};
        CHECK(answers(jadvolni_parse_table("1,x\n", 4, true, &table, 2, columns, 2), JADVOLNI_INVALID_TABLE, 1, 0, 0));
    }
    CHECK(numbers[0] == 77 && wide[0] == 77);
    /* Without a radix, neither what else the format has nor the cell is looked at. */
    memset(&columns[1].format, 0xff, sizeof columns[1].format);
    columns[1].format.mantissa_radix = 0;
    CHECK(answers(jadvolni_parse_table("1,x\n", 4, true, &table, 2, columns, 2), JADVOLNI_OK, 0, 1, 4));
    columns[1] = (jadvolni_table_column){.format = {0}};
    CHECK(answers(jadvolni_parse_table("5,x\n6,\n", 7, true, &table, 2, columns, 2), JADVOLNI_OK, 0, 2, 7));
    CHECK(numbers[0] == 5 && numbers[1] == 6);
    /* With an array, the radix 0 is a wrong one. */
    columns[0].format.mantissa_radix = 0;
    CHECK(answers(jadvolni_parse_table("5,x\n", 4, true, &table, 2, columns, 2), JADVOLNI_INVALID_MANTISSA_RADIX, 0, 0, 0));
}

/* Of several arrays the first that has room is taken, in the order of the fields. */
static void arrays_in_turn(void)
{
    int64_t i64 = 77;
    uint64_t u64 = 77;
    int32_t i32 = 77;
    uint32_t u32 = 77;
    int16_t i16 = 77;
    uint16_t u16 = 77;
    int8_t i8 = 77;
    uint8_t u8 = 77;
    jadvolni_table table = {.separator = ','};
    jadvolni_table_column column = {.format = STANDARD, .i64 = {&i64, 1}, .u64 = {&u64, 1}, .i32 = {&i32, 1},
                                    .u32 = {&u32, 1}, .i16 = {&i16, 1}, .u16 = {&u16, 1}, .i8 = {&i8, 1}, .u8 = {&u8, 1}};
    size_t *capacities[] = {&column.i64.capacity, &column.u64.capacity, &column.i32.capacity, &column.u32.capacity,
                            &column.i16.capacity, &column.u16.capacity, &column.i8.capacity,  &column.u8.capacity};
    for (size_t k = 0; k < 8; k++) {
        CHECK(answers(jadvolni_parse_table(&"01234567"[k], 1, true, &table, 1, &column, 1), JADVOLNI_OK, 0, 1, 1));
        *capacities[k] = 0;
    }
    CHECK(i64 == 0 && u64 == 1 && i32 == 2 && u32 == 3 && i16 == 4 && u16 == 5 && i8 == 6 && u8 == 7);
}

/* Lengths of 0 with NULL, no column and no room. */
static void ends(void)
{
    uint8_t bytes[2] = {77, 77};
    jadvolni_table table = {.separator = '\n'};
    jadvolni_table_column column = {.format = STANDARD, .u8 = {bytes, 2}};
    CHECK(answers(jadvolni_parse_table(NULL, 0, true, &table, 2, &column, 1), JADVOLNI_OK, 0, 0, 0));
    CHECK(answers(jadvolni_parse_table(NULL, 0, false, &table, 2, NULL, 0), JADVOLNI_OK, 0, 0, 0));
    CHECK(answers(jadvolni_parse_table("1\n", 2, true, &table, 2, NULL, 0), JADVOLNI_TOO_MANY_CELLS, 0, 0, 0));
    CHECK(answers(jadvolni_parse_table("x", 1, true, &table, 0, &column, 1), JADVOLNI_OK, 0, 0, 0));
    CHECK(bytes[0] == 77);
    CHECK(answers(jadvolni_parse_table("5\n6\n7", 5, true, &table, 2, &column, 1), JADVOLNI_OK, 0, 2, 4));
    CHECK(bytes[0] == 5 && bytes[1] == 6);
}

/* A text of 10, -20 and 30, whose third row lacks its last cell, gives in two parts what the whole one gives. */
static void parts_of(const jadvolni_table *table, const char *text)
{
    size_t size = strlen(text);
    for (size_t cut = 0; cut <= size; cut++) {
        int32_t numbers[4] = {77, 77, 77, 77};
        jadvolni_table_column columns[] = {{.format = STANDARD, .i32 = {numbers, 4}}, {.format = {0}}, {.format = {0}}};
        char *bytes = exactly(text, cut);
        jadvolni_table_result front = jadvolni_parse_table(bytes, cut, false, table, 4, columns, 3);
        free(bytes);
        CHECK(front.status == JADVOLNI_OK && front.place <= cut && front.column == 0);
        CHECK(numbers[front.rows] == 77);
        columns[0].i32.numbers += front.rows;
        columns[0].i32.capacity -= front.rows;
        size_t left = size - front.place;
        jadvolni_table_result rest =
            jadvolni_parse_table(text + front.place, left, true, table, 4 - front.rows, columns, 3);
        CHECK(answers(rest, JADVOLNI_TOO_FEW_CELLS, 2, 2 - front.rows, left));
        CHECK(numbers[0] == 10 && numbers[1] == -20 && numbers[2] == 30 && numbers[3] == 77);
    }
}

static void parts(void)
{
    static const size_t widths[] = {3, 1, 2};
    jadvolni_table cells = {.separator = ',', .has_returns = 1};
    jadvolni_table table = {.allows_blanks = 1, .has_quotes = 1, .widths = widths, .width_count = 3};
    parts_of(&cells, "10,a,1\r\n-20,,2\r\n30,b");
    parts_of(&table, "10 a 1\n-20 \"\"\n 30b");
    table.is_records = 1;
    parts_of(&table, "10 a 1-20\n\"\" 30b");
}

/* Each column has its own format, also one that isn't decimal. */
static void formats(void)
{
    uint64_t colours[1] = {77};
    int8_t levels[1] = {77};
    jadvolni_format hexadecimal = jadvolni_format_of_radix(16), signs = JADVOLNI_FORMAT_STANDARD;
    hexadecimal.base_prefix = 'x';
    signs.required_mantissa_sign = 1;
    jadvolni_table table = {.separator = '\t'};
    jadvolni_table_column columns[] = {{.format = hexadecimal, .u64 = {colours, 1}}, {.format = signs, .i8 = {levels, 1}}};
    CHECK(answers(jadvolni_parse_table("0xFf\t+9\n", 8, true, &table, 1, columns, 2), JADVOLNI_OK, 0, 1, 8));
    CHECK(colours[0] == 255 && levels[0] == 9);
    CHECK(answers(jadvolni_parse_table("0x1\t9\n", 6, true, &table, 1, columns, 2), JADVOLNI_MISSING_SIGN, 1, 0, 4));
    CHECK(colours[0] == 1 && levels[0] == 9);
}

/* A missing number is 0 without its bit, in columns with bits alone; all other bits stay. */
static void missing_numbers(void)
{
    int16_t numbers[10], others[10];
    uint8_t bits[2] = {0xA5, 0xA5};
    jadvolni_table table = {.separator = ',', .allows_blanks = 1, .skips_empty_rows = 1, .missing = "NA", .missing_len = 2};
    jadvolni_table_column columns[] = {{.format = STANDARD, .i16 = {numbers, 10}, .present = {bits, 2}},
                                       {.format = STANDARD, .i16 = {others, 10}}};
    static const char text[] = "1,2\n NA ,3\n\n-4,5\nNA,6\n7,8\n9,1\n1,1\n2,2\nNA,3\nNAN,NA\n";
    for (size_t k = 0; k < 10; k++) numbers[k] = others[k] = 77;
    char *bytes = exactly(text, sizeof text - 1);
    jadvolni_table_result r = jadvolni_parse_table(bytes, sizeof text - 1, true, &table, 10, columns, 2);
    free(bytes);
    CHECK(answers(r, JADVOLNI_INVALID_DIGIT, 0, 9, sizeof text - 1 - 7));
    CHECK(numbers[0] == 1 && numbers[1] == 0 && numbers[2] == -4 && numbers[3] == 0 && numbers[8] == 0 && numbers[9] == 77);
    CHECK(others[0] == 2 && others[8] == 3 && others[9] == 77);
    CHECK(bits[0] == 0xF5 && bits[1] == 0xA4);
    r = jadvolni_parse_table("1,NA", 4, true, &table, 10, columns, 2);
    CHECK(answers(r, JADVOLNI_INVALID_DIGIT, 1, 0, 2));
    columns[0].present.size = 1;
    CHECK(answers(jadvolni_parse_table("1,2", 3, true, &table, 9, columns, 2), JADVOLNI_INVALID_TABLE, 0, 0, 0));
    CHECK(answers(jadvolni_parse_table("1,2", 3, true, &table, 8, columns, 2), JADVOLNI_OK, 0, 1, 3));
    table.missing = NULL;
    table.missing_len = 0;
    CHECK(answers(jadvolni_parse_table(",2", 2, true, &table, 8, columns, 2), JADVOLNI_OK, 0, 1, 2));
    CHECK(numbers[0] == 0 && bits[0] == 0xF4);
    /* Bits of a column that isn't read are left alone. */
    columns[0].i16.capacity = columns[0].format.mantissa_radix = 0;
    CHECK(answers(jadvolni_parse_table("x,2", 3, true, &table, 9, columns, 2), JADVOLNI_OK, 0, 1, 3));
    CHECK(bits[0] == 0xF4 && bits[1] == 0xA4);
}

/* Cells within quotes hold separators and line feeds, and each quote has its place. */
static void quotes(void)
{
    jadvolni_table table = {.separator = ',', .has_quotes = 1, .allows_blanks = 1}, plain = {.separator = ','};
    EXPECT("\"1\",\"a,\n\",2\n\" -3 \",\"\"\"\",4\n", table, JADVOLNI_OK, 0, 2, 26, 1, 2, -3, 4);
    EXPECT("1,x\"y,2\n", table, JADVOLNI_MISPLACED_QUOTE, 1, 0, 3, 1, 99, 77, 99);
    EXPECT("1,,2\n-3,,\"4\n", table, JADVOLNI_MISPLACED_QUOTE, 2, 1, 9, 1, 2, -3, 99);
    EXPECT("\"1\",,2\n", plain, JADVOLNI_INVALID_DIGIT, 0, 0, 0, 77, 99, 77, 99);
}

/* Cells of given widths, in lines. */
static void widths_in_lines(void)
{
    static const size_t three[] = {3, 2, 3}, around[] = {2, 3, 1}, with_none[] = {2, 0, 1}, huge[] = {SIZE_MAX, SIZE_MAX, 3};
    jadvolni_table table = {.separator = ',', .allows_blanks = 1, .widths = three, .width_count = 3};
    jadvolni_table quoted = {.has_quotes = 1, .widths = around, .width_count = 3};
    jadvolni_table none = {.widths = with_none, .width_count = 3}, endless = {.widths = huge, .width_count = 3};
    EXPECT(" -1ab  2\n 30,\"  4\n", table, JADVOLNI_OK, 0, 2, 18, -1, 2, 30, 4);
    EXPECT(" -1ab  2\n 30,\"  4", table, JADVOLNI_OK, 0, 2, 17, -1, 2, 30, 4);
    EXPECT("", table, JADVOLNI_OK, 0, 0, 0, 77, 99, 77, 99);
    EXPECT(" -1ab  2\n30", table, JADVOLNI_TOO_FEW_CELLS, 0, 1, 11, -1, 2, 77, 99);
    EXPECT(" -1ab  2\n 30ab\n", table, JADVOLNI_TOO_FEW_CELLS, 2, 1, 14, -1, 2, 30, 99);
    EXPECT("\n", table, JADVOLNI_TOO_FEW_CELLS, 0, 0, 0, 77, 99, 77, 99);
    EXPECT(" -1ab  2x\n", table, JADVOLNI_TOO_MANY_CELLS, 3, 0, 8, -1, 2, 77, 99);
    EXPECT(" -1ab 2x\n", table, JADVOLNI_INVALID_DIGIT, 2, 0, 7, -1, 99, 77, 99);
    EXPECT(" 1,ab  2\n", table, JADVOLNI_INVALID_DIGIT, 0, 0, 2, 77, 99, 77, 99);
    EXPECT("   ab  2\n", table, JADVOLNI_EMPTY, 0, 0, 3, 77, 99, 77, 99);
    EXPECT("123\n-45\n", none, JADVOLNI_OK, 0, 2, 8, 12, 3, -4, 5);
    EXPECT("1\n", endless, JADVOLNI_TOO_FEW_CELLS, 0, 0, 1, 77, 99, 77, 99);
    EXPECT(" -1ab  2\r\n", table, JADVOLNI_TOO_MANY_CELLS, 3, 0, 8, -1, 2, 77, 99);
    table.has_returns = table.skips_empty_rows = 1;
    EXPECT("\r\n -1ab  2\r\n", table, JADVOLNI_OK, 0, 1, 12, -1, 2, 77, 99);
    EXPECT(" -1ab  2\n", table, JADVOLNI_MISSING_RETURN, 3, 0, 8, -1, 2, 77, 99);
    EXPECT("12\"\n\"3\n", quoted, JADVOLNI_OK, 0, 1, 7, 12, 3, 77, 99);
}

/* Records: rows of as many bytes, with nothing between. */
static void records(void)
{
    static const size_t three[] = {3, 2, 3};
    jadvolni_table table = {.separator = ',', .has_returns = 1, .allows_blanks = 1, .is_records = 1, .widths = three,
                            .width_count = 3};
    EXPECT(" -1ab  2 30,\n  4", table, JADVOLNI_OK, 0, 2, 16, -1, 2, 30, 4);
    EXPECT("", table, JADVOLNI_OK, 0, 0, 0, 77, 99, 77, 99);
    EXPECT(" -1ab  2 30,", table, JADVOLNI_TOO_FEW_CELLS, 1, 1, 12, -1, 2, 30, 99);
    EXPECT(" -1ab  2\n", table, JADVOLNI_TOO_FEW_CELLS, 0, 1, 9, -1, 2, 77, 99);
    EXPECT(" -1ab  2\n30ab  4", table, JADVOLNI_INVALID_DIGIT, 0, 1, 8, -1, 2, 77, 99);
    EXPECT(" -1ab  2 30ab256", table, JADVOLNI_OVERFLOW, 2, 1, 15, -1, 2, 30, 99);
    table.has_quotes = 1;
    EXPECT("\"1\"\"\n\"4\"", table, JADVOLNI_MISPLACED_QUOTE, 1, 0, 3, 1, 99, 77, 99);
}

/* Doubled quotes are folded where there is room, and nothing behind changes. */
static void folding(void)
{
    static const char text[] = "\"\"5\"\" nails\"\"\"";
    char folded[13] = "............";
    CHECK(jadvolni_fold_quotes(text, sizeof text - 1, folded, 10) == 11 && strcmp(folded, "............") == 0);
    CHECK(jadvolni_fold_quotes(text, sizeof text - 1, folded, 11) == 11 && strcmp(folded, "\"5\" nails\"\".") == 0);
    CHECK(jadvolni_fold_quotes(text, sizeof text - 1, NULL, 0) == 11);
    CHECK(jadvolni_fold_quotes(NULL, 0, NULL, 0) == 0);
}

int main(void)
{
    widths_in_lines();
    records();
    missing_numbers();
    quotes();
    folding();
    each_type();
    faults_of_cells();
    line_ends();
    faults_of_tables();
    columns_without_room();
    arrays_in_turn();
    ends();
    parts();
    formats();
    return checked();
}
