/*
 * Adds up a column of a table on standard input, which may be of any size, block by block: ledger.c,
 * csv_column.c and records.c say how the table is written.
 *
 * The first wrong cell is reported by its row and column, counted from 1, and by its byte, counted from 0.
 */
#include "command.h"
#include <jadvolni.h>

enum { ROWS = 1000 };

/* The table, of which the column that is added up has `values`, and what was read of it. */
typedef struct column_sum {
    jadvolni_table table;
    jadvolni_table_column *columns;
    size_t column_count;
    int64_t values[ROWS], sum;
    size_t row, byte;
} column_sum;

/* The bytes of standard input that aren't read as rows yet. */
typedef struct block {
    char *bytes;
    size_t len, size;
} block;

/* Reads more bytes, with room for a longer row where there is none. Answers whether there were any. */
static int fill(block *input)
{
    if (input->len == input->size) {
        input->size = input->size ? 2 * input->size : 1 << 16;
        input->bytes = realloc(input->bytes, input->size);
        if (!input->bytes) err(2, "memory for a row");
    }
    size_t count = fread(input->bytes + input->len, 1, input->size - input->len, stdin);
    if (ferror(stdin)) err(2, "standard input");
    input->len += count;
    return count > 0;
}

/* Adds the values of rows, up to the first with which the sum leaves the type. Answers how many. */
static size_t add_values(column_sum *of, size_t rows)
{
    for (size_t k = 0; k < rows; k++) {
        int64_t value = of->values[k];
        if (value > 0 ? of->sum > INT64_MAX - value : of->sum < INT64_MIN - value) return k;
        of->sum += value;
    }
    return rows;
}

/* Adds up the whole rows of a text, and all of the last one. Answers how many bytes these have. */
static size_t add_rows(column_sum *of, const char *text, size_t len, bool is_last)
{
    size_t start = 0;
    jadvolni_table_result r;
    do {
        r = jadvolni_parse_table(text + start, len - start, is_last, &of->table, ROWS, of->columns, of->column_count);
        size_t added = add_values(of, r.rows);
        of->row += added;
        if (added < r.rows) errx(1, "row %zu: the sum leaves the type", of->row + 1);
        if (r.status != JADVOLNI_OK)
            errx(1, "row %zu, cell %zu, byte %zu: %s", of->row + 1, r.column + 1, of->byte + start + r.place,
                 jadvolni_status_text(r.status));
        start += r.place;
    } while (r.rows == ROWS);
    of->byte += start;
    return start;
}

/* Prints the sum of all that is left of standard input. Answers the program's exit status. */
static int print_sum(column_sum *of, block *input)
{
    bool is_last;
    do {
        is_last = !fill(input);
        size_t whole = add_rows(of, input->bytes, input->len, is_last);
        input->len -= whole;
        memmove(input->bytes, input->bytes + whole, input->len);
    } while (!is_last);
    free(input->bytes);
    if (printf("%lld\n", (long long)of->sum) < 0 || fflush(stdout) != 0) err(2, "standard output");
    return 0;
}
