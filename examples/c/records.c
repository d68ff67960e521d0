/* Adds up the amounts of records: a day of 3 bytes, a name of 4 and an amount of 6, with nothing between
 * two of them: records < FILE. Blanks may stand around an amount. */
#include "column_sum.h"

static const char page[] = "usage: records < FILE\n"
    "Adds up the amounts of records of 13 bytes."
    " Exit status 1: a wrong record, or too large a sum; 2: reading or writing failed.\n";

int main(int count, char **arguments)
{
    check_arguments(count == 1, count, arguments, page);
    static const size_t widths[] = {3, 4, 6};
    column_sum amounts = {
        .table = {.allows_blanks = 1, .is_records = 1, .widths = widths, .width_count = 3},
        .column_count = 3,
    };
    jadvolni_table_column columns[] = {
        {.format = {0}}, // the day and the name, which aren't read
        {.format = {0}},
        {.format = JADVOLNI_FORMAT_STANDARD, .i64 = {amounts.values, ROWS}},
    };
    block input = {.len = 0};
    amounts.columns = columns;
    return print_sum(&amounts, &input);
}
