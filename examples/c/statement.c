/* Reads a bank statement: texts, amounts such as -1.234,50, lines that end with or without a return, and a bad row. */
#include <jadvolni.h>
#include <stdio.h>

int main(void)
{
    static const char text[] = "29.02.;Rent;-1.234,50\r\n1.3.;Food;12,5o\n2.3.;Books;7,00\n";
    jadvolni_cell_text purposes[10];
    int64_t cents[10];
    jadvolni_bad_row bad[10];
    const jadvolni_table statement = {.separator = ';', .allows_returns = 1};
    jadvolni_table_column columns[] = {
        {.text = {NULL, 0}}, // the date, which isn't read
        {.text = {purposes, 10}},
        {.format = {.digit_separator = '.', .integer_internal_digit_separator = 1}, .point = ',', .places = 2,
         .i64 = {cents, 10}},
    };
    jadvolni_skipping_result r =
        jadvolni_parse_table_skipping(text, sizeof text - 1, true, &statement, 10, columns, 3, bad, 10);
    for (size_t k = 0; k < r.rows; k++)
        printf("%.*s: %lld\n", (int)purposes[k].size, text + purposes[k].start, (long long)cents[k]);
    for (size_t k = 0; k < r.bad_rows; k++)
        printf("row %zu, byte %zu: %s\n", bad[k].row + 1, bad[k].place, jadvolni_status_text(bad[k].status));
    if (fflush(stdout) != 0) perror("standard output");
    return ferror(stdout) != 0;
}
