/* Prints a bank's or a shop's export of days, accounts, purposes and amounts, and their sum: bank_export MARKS < FILE
 * MARKS are the separator, the point and the digit separator: ';,.' for -1.234,50 and ',.,' for "1,234.00". */
#include "command.h"
#include <jadvolni.h>

enum { ROWS = 1000 };
static jadvolni_cell_text texts[3][ROWS];
static int64_t cents[ROWS], sum;
static uint8_t present[(ROWS + 7) / 8];
static char *text, *field; // the whole export, and room for a field of it

static void print_amount(int64_t amount)
{
    printf("%s%lld.%02lld\n", amount < 0 ? "-" : "", llabs(amount / 100), llabs(amount % 100));
}

static void print_row(const char *rows, size_t row) // and adds its amount; control characters are blanks
{
    if (__builtin_add_overflow(sum, cents[row], &sum)) errx(1, "the sum leaves the type");
    for (int column = 0; column < 3; column++, fputs(" | ", stdout)) {
        jadvolni_cell_text cell = texts[column][row];
        size_t size = jadvolni_fold_quotes(rows + cell.start, cell.size, field, cell.size);
        for (size_t k = 0; k < size; k++) putchar((unsigned char)field[k] < ' ' ? ' ' : field[k]);
    }
    if (present[row >> 3] >> (row & 7) & 1) print_amount(cents[row]); else puts("no amount");
}

static const char page[] = "usage: bank_export MARKS < FILE\n"
    "Prints an export, and the sum of its amounts."
    " Exit status 1: a bad row, or too large a sum; 2: reading or writing failed.\n";

int main(int count, char **arguments)
{
    check_arguments(count == 2 && strlen(arguments[1]) == 3, count, arguments, page);
    const uint8_t *marks = (const uint8_t *)arguments[1];
    const jadvolni_table table = {.separator = marks[0], .has_quotes = 1, .allows_blanks = 1, .skips_empty_rows = 1,
                                  .allows_returns = 1};
    jadvolni_table_column columns[] = {
        {.text = {texts[0], ROWS}}, {.text = {texts[1], ROWS}}, {.text = {texts[2], ROWS}},
        {.format = {.digit_separator = marks[2], .integer_internal_digit_separator = 1}, .point = marks[1], .places = 2,
         .i64 = {cents, ROWS}, .present = {present, sizeof present}}};
    size_t room = 0, bad_rows = 0;
    ssize_t got = getdelim(&text, &room, '\0', stdin); // all of it, since no NUL stands in an export
    if (ferror(stdin) || (got < 0 && !feof(stdin))) err(2, "standard input");
    if (!feof(stdin)) errx(1, "byte %zd: a NUL", got - 1);
    size_t len = got > 0 ? (size_t)got : 0, start = len >= 3 && memcmp(text, "\xef\xbb\xbf", 3) == 0 ? 3 : 0;
    if (!(field = malloc(len + 1))) err(2, "memory for a field");
    start += jadvolni_row_place(text + start, len - start, &table, 0).stop; // behind a byte order mark, and the names
    for (jadvolni_skipping_result r = {.rows = ROWS}; r.rows == ROWS; bad_rows += r.bad_rows, start += r.place) {
        jadvolni_bad_row bad;
        r = jadvolni_parse_table_skipping(text + start, len - start, true, &table, ROWS, columns, 4, &bad, 1);
        if (r.status != JADVOLNI_OK) errx(2, "%s: %s", arguments[1], jadvolni_status_text(r.status));
        if (bad_rows == 0 && r.bad_rows > 0)
            warnx("line %zu, field %zu: %s", jadvolni_line_column(text, len, start + bad.place).line + 1,
                  bad.column + 1, jadvolni_status_text(bad.status));
        for (size_t row = 0; row < r.rows; row++) print_row(text + start, row);
    }
    print_amount(sum);
    if (fflush(stdout) != 0 || ferror(stdout)) err(2, "standard output");
    if (bad_rows > 0) errx(1, "bad rows: %zu", bad_rows);
}
