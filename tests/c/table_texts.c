/* What jadvolni_table_text says of tables and columns that are refused, and of a wrong text. */
#include "jadvolni.h"
#include "check.h"

static int64_t wide[4];
static uint8_t bits[1];

/* What is said of a text with this many rows, read into one column. */
static const char *said(const char *text, const jadvolni_table *table, size_t rows, jadvolni_table_column column)
{
    jadvolni_table_result r = jadvolni_parse_table(text, strlen(text), true, table, rows, &column, 1);
    return jadvolni_table_text(r, table, rows, &column, 1);
}

static int is(const char *found, const char *wanted)
{
    if (strstr(found, wanted)) return 1;
    fprintf(stderr, "%s\n", found);
    return 0;
}

static void tables(void)
{
    static const size_t widths[2] = {1, 1};
    const jadvolni_table_column unread = {.format = {0}};
    jadvolni_table table = {0};
    CHECK(is(said("1", &table, 4, unread), "no fault"));
    table.reserved[8] = 1;
    CHECK(is(said("1", &table, 4, unread), "the reserved bytes of the table have to be 0"));
    table.reserved[8] = 0, table.widths = widths, table.width_count = 2;
    CHECK(is(said("1", &table, 4, unread), "not one for each column"));
    table.width_count = 0, table.is_records = 1;
    CHECK(is(said("1", &table, 4, unread), "records needs widths"));
}

static void columns(void)
{
    const jadvolni_table table = {.separator = ','};
    jadvolni_table_column column = {.format = JADVOLNI_FORMAT_STANDARD, .i64 = {wide, 4}};
    CHECK(is(said("1", &table, 4, column), "no fault"));
    CHECK(is(said("1x", &table, 4, column), "invalid digit"));
    CHECK(is(said("1,2", &table, 4, column), "too many cells"));
    CHECK(is(said("1", &table, 5, column), "array has room for fewer rows"));
    column.present.bytes = bits, column.present.size = 1;
    CHECK(is(said("1", &table, 4, column), "no fault"));
    column.i64.capacity = 9; /* which nothing is written to, as the bits are refused */
    CHECK(is(said("1", &table, 9, column), "bits have room for fewer rows"));
    column.i64.capacity = 0;
    CHECK(is(said("1", &table, 4, column), "a format, and no array that has room"));
    column.i64.capacity = 4, column.format.mantissa_radix = 0;
    CHECK(is(said("1", &table, 4, column), "an array and no format"));
    column.format.mantissa_radix = 37;
    CHECK(is(said("1", &table, 4, column), "the radix has to be 2 to 36"));
    column.format.mantissa_radix = 10, column.format.digit_separator = '5';
    CHECK(is(said("1", &table, 4, column), "the separator has to be ASCII"));
    column.format.digit_separator = 0, column.format.reserved[0] = 1;
    CHECK(is(said("1", &table, 4, column), "reserved bytes and bits of the format"));
}

/* Columns of fixed-point numbers and of texts. */
static void amounts_and_texts(void)
{
    const jadvolni_table table = {.separator = ','};
    jadvolni_cell_text found[4];
    jadvolni_table_column amounts = {.places = 39, .i64 = {wide, 4}}, texts = {.text = {found, 4}};
    CHECK(is(said("1", &table, 4, amounts), "at most 38 places"));
    amounts.point = '-';
    CHECK(is(said("1", &table, 4, amounts), "the point has to be no digit, no sign"));
    amounts.format.base_prefix = 'x';
    CHECK(is(said("1", &table, 4, amounts), "no prefix, no suffix"));
    amounts.format.mantissa_radix = 16;
    CHECK(is(said("1", &table, 4, amounts), "have to have the radix 10"));
    amounts.reserved[0] = 1;
    CHECK(is(said("1", &table, 4, amounts), "reserved bytes and bits"));
    CHECK(is(said("1", &table, 4, texts), "no fault"));
    CHECK(is(said("1", &table, 5, texts), "array has room for fewer rows"));
    texts.present.bytes = bits, texts.present.size = 1;
    CHECK(is(said("1", &table, 4, texts), "no fault"));
    texts.text.capacity = 9; /* which nothing is written to, as the bits are refused */
    CHECK(is(said("1", &table, 9, texts), "bits have room for fewer rows"));
}

/* The first array that has room is the column's, whatever its type. */
static void each_type(void)
{
    const jadvolni_table table = {.separator = ','};
    size_t type;
    for (type = 0; type < 9; type++) {
        jadvolni_table_column column = {.format = JADVOLNI_FORMAT_STANDARD};
        size_t *rooms[] = {&column.i64.capacity, &column.u64.capacity, &column.i32.capacity, &column.u32.capacity,
                           &column.i16.capacity, &column.u16.capacity, &column.i8.capacity, &column.u8.capacity,
                           &column.text.capacity};
        *rooms[type] = 3;
        CHECK(is(said("", &table, 4, column), "array has room for fewer rows"));
        *rooms[8] = 4; /* a later one */
        CHECK(is(said("", &table, 4, column), type == 8 ? "no fault" : "array has room for fewer rows"));
    }
}

int main(void)
{
    tables();
    columns();
    amounts_and_texts();
    each_type();
    return checked();
}
