/* Adds up a ledger, a line `NAME AMOUNT` for each entry: ledger < FILE. */
#include "column_sum.h"

static const char page[] = "usage: ledger < FILE\n"
    "Adds up the amounts of lines `NAME AMOUNT`."
    " Exit status 1: a wrong row, or too large a sum; 2: reading or writing failed.\n";

int main(int count, char **arguments)
{
    check_arguments(count == 1, count, arguments, page);
    column_sum amounts = {.table = {.separator = ' '}, .column_count = 2};
    jadvolni_table_column columns[] = {
        {.format = {0}}, // the name, which isn't read
        {.format = JADVOLNI_FORMAT_STANDARD, .i64 = {amounts.values, ROWS}},
    };
    block input = {.len = 0};
    amounts.columns = columns;
    return print_sum(&amounts, &input);
}
