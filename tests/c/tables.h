/* What the tests of tables from C share. */
#include "jadvolni.h"
#include "check.h"

#define STANDARD JADVOLNI_FORMAT_STANDARD

/* Whether a call's result has these fields; it prints another one. */
static int answers(jadvolni_table_result r, uint32_t status, size_t column, size_t rows, size_t place)
{
    if (r.status == status && r.column == column && r.rows == rows && r.place == place) return 1;
    fprintf(stderr, "%s, column %zu, rows %zu, place %zu\n", jadvolni_status_name(r.status), r.column, r.rows, r.place);
    return 0;
}

/* Reads a copy of a text, after which a sanitizer sees each access. */
static inline jadvolni_table_result read_table(const char *text, const jadvolni_table *table, size_t rows,
                                               jadvolni_table_column *columns, size_t count)
{
    size_t len = strlen(text);
    char *bytes = exactly(text, len);
    jadvolni_table_result r = jadvolni_parse_table(bytes, len, true, table, rows, columns, count);
    free(bytes);
    return r;
}
