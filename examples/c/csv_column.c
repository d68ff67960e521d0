/* Adds up a column of comma-separated values: csv_column COLUMN < FILE. Columns count from 1.
 * There is no header, and each line has as many cells as the first. Quotes have no meaning. */
#include "column_sum.h"

/* How many cells the first line of standard input has. */
static size_t cells_of_line(block *input)
{
    size_t cells = 1;
    for (size_t k = 0; k < input->len || fill(input); k++) {
        if (input->bytes[k] == '\n') break;
        cells += input->bytes[k] == ',';
    }
    return cells;
}

static const char page[] = "usage: csv_column COLUMN < FILE\n"
    "Adds up that column, counted from 1."
    " Exit status 1: a wrong row, or too large a sum; 2: reading or writing failed.\n";

int main(int count, char **arguments)
{
    uint64_t column = 0;
    bool is_number = count == 2 && !jadvolni_parse_u64(arguments[1], strlen(arguments[1]), &column).status;
    check_arguments(is_number && column > 0, count, arguments, page);
    block input = {.len = 0};
    column_sum numbers = {.table = {.separator = ','}, .column_count = cells_of_line(&input)};
    /* Where the first line has no such cell, it has one too few. */
    if (column > numbers.column_count) column = ++numbers.column_count;
    numbers.columns = calloc(numbers.column_count, sizeof *numbers.columns);
    if (!numbers.columns) err(2, "memory for the columns");
    jadvolni_table_column *read = &numbers.columns[column - 1];
    read->format = jadvolni_format_of_radix(10);
    read->i64.numbers = numbers.values;
    read->i64.capacity = ROWS;
    int status = print_sum(&numbers, &input);
    free(numbers.columns);
    return status;
}
