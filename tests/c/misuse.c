/* Calls that break what jadvolni.h asks of a caller, each chosen by MISUSE: behind its number stands what compilers
 * have to say. */
#include "jadvolni.h"

#include <stdlib.h>

#define FORMAT &(const jadvolni_format)JADVOLNI_FORMAT_STANDARD

/* What the call answers, and what it leaves. */
static uint64_t used(jadvolni_result r, uint64_t value)
{
    return r.status + r.place + value;
}

static uint64_t used_table(jadvolni_table_result r)
{
    return r.status + r.column + r.rows + r.place;
}

static uint64_t used_row(jadvolni_row_result r)
{
    return r.status + r.start + r.stop;
}

static uint64_t used_cells(jadvolni_cells_result r)
{
    return r.status + r.count;
}

static uint64_t used_skipping(jadvolni_skipping_result r)
{
    return r.status + r.column + r.rows + r.bad_rows + r.place;
}

uint64_t misuse(void);
uint64_t misuse(void)
{
    char text[4] = {'1', '2', '3', '4'};
    uint64_t value = 0, values[2] = {0, 0};
    uint16_t narrow = 0;
    size_t count = 0;
    jadvolni_uint128 wide = {0, 0};
    jadvolni_table table = {.separator = ','};
    jadvolni_table_column column = {.format = JADVOLNI_FORMAT_STANDARD, .u64 = {values, 2}};
    jadvolni_bad_row bad[2] = {{0}, {0}};
    jadvolni_cell_place cells[2] = {{0, 0}, {0, 0}};
    jadvolni_suffix suffixes[1] = {JADVOLNI_SUFFIX("u8", JADVOLNI_TYPE_U8)};
    size_t entry = 0;
    (void)suffixes, (void)entry, (void)bad, (void)cells, (void)narrow, (void)count, (void)values, (void)text, (void)wide, (void)table, (void)column;
#if MISUSE == 0
    return used(jadvolni_parse_u64(text, 4, &value), value)
        + used(jadvolni_parse_u64_front_with_format(NULL, 0, FORMAT, &value), value)
        + used(jadvolni_parse_u64_column(text, 4, ',', FORMAT, values, 2, &count), values[0])
        + used(jadvolni_parse_u64_column(text, 4, ',', FORMAT, NULL, 0, &count), count)
        + used(jadvolni_parse_u64_column_part(text, 4, true, ',', FORMAT, values, 2, &count), values[0])
        + used(jadvolni_parse_literal(text, 4, FORMAT, &wide, &count), wide.low)
        + used(jadvolni_parse_typed_literal(text, 4, FORMAT, suffixes, 1, &wide, &count, &entry), wide.low)
        + used(jadvolni_parse_typed_literal(NULL, 0, FORMAT, NULL, 0, &wide, &count, &entry), wide.low)
        + jadvolni_field_start(text, 4, ',') + jadvolni_field_start(NULL, 0, ',')
        + used_table(jadvolni_parse_table(text, 4, true, &table, 2, &column, 1))
        + used_table(jadvolni_parse_table(NULL, 0, true, &table, 2, NULL, 0))
        + used_row(jadvolni_row_place(text, 4, &table, 1)) + used_row(jadvolni_row_place(NULL, 0, &table, 1))
        + used_cells(jadvolni_row_cells(text, 4, &table, 0, cells, 2))
        + used_cells(jadvolni_row_cells(NULL, 0, &table, 0, NULL, 0)) + cells[0].start
        + used_skipping(jadvolni_parse_table_skipping(text, 4, true, &table, 2, &column, 1, bad, 2))
        + used_skipping(jadvolni_parse_table_skipping(NULL, 0, true, &table, 2, NULL, 0, NULL, 0)) + values[1];
#elif MISUSE == 1 /* gcc: stringop-overread, clang: user-defined-warnings */
    return used(jadvolni_parse_u64(text, 40, &value), value);
#elif MISUSE == 2 /* gcc: stringop-overread, clang: user-defined-warnings */
    return used(jadvolni_parse_u64_column(text, 40, ',', FORMAT, values, 2, &count), values[0]);
#elif MISUSE == 3 /* both: unused-result */
    jadvolni_parse_u64_front(text, 4, &value);
    return value;
#elif MISUSE == 4 /* both: nonnull */
    return used(jadvolni_parse_u64_partial(text, 4, NULL), value);
#elif MISUSE == 5 /* both: nonnull */
    return used(jadvolni_parse_u64_with_format(text, 4, NULL, &value), value);
#elif MISUSE == 6 /* both: nonnull */
    return used(jadvolni_parse_u64_column(text, 4, ',', FORMAT, values, 2, NULL), values[0]);
#elif MISUSE == 7 /* gcc: stringop-overflow */
    return used(jadvolni_parse_u64_column(text, 4, ',', FORMAT, values, 3, &count), values[0]);
#elif MISUSE == 8 /* gcc: stringop-overflow */
    return used(jadvolni_parse_u64(text, 4, (uint64_t *)(void *)&narrow), narrow);
#elif MISUSE == 9 /* gcc: nonnull */
    return used(jadvolni_parse_u64(NULL, 4, &value), value);
#elif MISUSE == 10 /* gcc: stringop-overread, clang: user-defined-warnings */
    return jadvolni_field_start(text, 40, ',');
#elif MISUSE == 11 /* both: unused-result */
    jadvolni_field_start(text, 4, ',');
    return value;
#elif MISUSE == 12 /* both: unused-result */
    jadvolni_format_error(FORMAT);
    return value;
#elif MISUSE == 13 /* both: unused-result */
    jadvolni_parse_literal(text, 4, FORMAT, &wide, &count);
    return wide.low;
#elif MISUSE == 14 /* both: nonnull */
    return used(jadvolni_parse_literal(text, 4, FORMAT, &wide, NULL), wide.low);
#elif MISUSE == 15 /* gcc: stringop-overread, clang: user-defined-warnings */
    return used(jadvolni_parse_literal(text, 40, FORMAT, &wide, &count), wide.low);
#elif MISUSE == 16 /* both: unused-result */
    jadvolni_parse_table(text, 4, true, &table, 2, &column, 1);
    return values[0];
#elif MISUSE == 17 /* both: nonnull */
    return used_table(jadvolni_parse_table(text, 4, true, NULL, 2, &column, 1));
#elif MISUSE == 18 /* gcc: stringop-overread, clang: user-defined-warnings */
    return used_table(jadvolni_parse_table(text, 40, true, &table, 2, &column, 1));
#elif MISUSE == 19 /* gcc: stringop-overread */
    return used_table(jadvolni_parse_table(text, 4, true, &table, 2, &column, 2));
#elif MISUSE == 20 /* gcc: nonnull */
    return used_table(jadvolni_parse_table(text, 4, true, &table, 2, NULL, 1));
#elif MISUSE == 21 /* both: incompatible-pointer-types */
    table.widths = &narrow, table.width_count = 1;
    return used_table(jadvolni_parse_table(text, 4, true, &table, 2, &column, 1));
#elif MISUSE == 22 /* both: unused-result */
    jadvolni_parse_u64_column_part(text, 4, true, ',', FORMAT, values, 2, &count);
    return values[0];
#elif MISUSE == 23 /* both: nonnull */
    return used(jadvolni_parse_u64_column_part(text, 4, true, ',', NULL, values, 2, &count), values[0]);
#elif MISUSE == 24 /* both: unused-result */
    jadvolni_row_place(text, 4, &table, 1);
    return value;
#elif MISUSE == 25 /* both: nonnull */
    return used_row(jadvolni_row_place(text, 4, NULL, 1));
#elif MISUSE == 26 /* gcc: stringop-overread, clang: user-defined-warnings */
    return used_row(jadvolni_row_place(text, 40, &table, 1));
#elif MISUSE == 27 /* both: unused-result */
    jadvolni_parse_table_skipping(text, 4, true, &table, 2, &column, 1, bad, 2);
    return values[0];
#elif MISUSE == 28 /* both: nonnull */
    return used_skipping(jadvolni_parse_table_skipping(text, 4, true, NULL, 2, &column, 1, bad, 2));
#elif MISUSE == 29 /* gcc: stringop-overflow */
    return used_skipping(jadvolni_parse_table_skipping(text, 4, true, &table, 2, &column, 1, bad, 3));
#elif MISUSE == 30 /* gcc: nonnull */
    return used_skipping(jadvolni_parse_table_skipping(text, 4, true, &table, 2, &column, 1, NULL, 2));
#elif MISUSE == 31 /* gcc: stringop-overread, clang: user-defined-warnings */
    return used_skipping(jadvolni_parse_table_skipping(text, 40, true, &table, 2, &column, 1, bad, 2));
#elif MISUSE == 32 /* both: unused-result */
    jadvolni_parse_typed_literal(text, 4, FORMAT, suffixes, 1, &wide, &count, &entry);
    return wide.low;
#elif MISUSE == 33 /* both: nonnull */
    return used(jadvolni_parse_typed_literal(text, 4, FORMAT, suffixes, 1, &wide, &count, NULL), wide.low);
#elif MISUSE == 34 /* gcc: stringop-overread */
    return used(jadvolni_parse_typed_literal(text, 4, FORMAT, suffixes, 2, &wide, &count, &entry), wide.low);
#elif MISUSE == 35 /* gcc: nonnull */
    return used(jadvolni_parse_typed_literal(text, 4, FORMAT, NULL, 1, &wide, &count, &entry), wide.low);
#elif MISUSE == 36 /* gcc: stringop-overread, clang: user-defined-warnings */
    return used(jadvolni_parse_typed_literal(text, 40, FORMAT, suffixes, 1, &wide, &count, &entry), wide.low);
#elif MISUSE == 37 /* both: unused-result */
    jadvolni_row_cells(text, 4, &table, 0, cells, 2);
    return value;
#elif MISUSE == 38 /* gcc: stringop-overflow */
    return used_cells(jadvolni_row_cells(text, 4, &table, 0, cells, 3));
#elif MISUSE == 39 /* gcc: stringop-overread, clang: user-defined-warnings */
    return used_cells(jadvolni_row_cells(text, 40, &table, 0, cells, 2));
#endif
}
