/* Answers questions about tables by jadvolni_parse_table, or by the call that skips bad rows, for tests/tables/compare.py.
 *
 * Standard input has questions: a struct question, a struct target and a width for each column, the mark and the text.
 * Each is asked in several ways: with the call's memory directly before a protected page, and directly after one; for
 * the whole text, and for its two parts at each cut. All ways have to get one answer. Standard output gets 0, or the
 * number of the first way with another answer, and then that answer: status, column, rows and place, each as uint64_t;
 * for each column that is read its numbers, or the places of its texts, and its bits; and if bad rows are skipped,
 * their number, their structs, and the places of some rows. */
#define _DEFAULT_SOURCE
#include "jadvolni.h"

#include <stdio.h>
#include <stdlib.h>
#include <string.h>
#include <sys/mman.h>

enum { GUARD = 1 << 14, REGION = 1 << 16, MOST_COLUMNS = 8, MOST_ROWS = 255, NUMBERS_BEFORE = 119, BITS_BEFORE = 90 };
enum { RETURNS = 1, QUOTES = 2, BLANKS = 4, SKIPS = 8, IS_LAST = 16, BY_WIDTHS = 32, RECORDS = 64, SKIPS_BAD = 128 };
enum { STRUCTS_CHANGED = 1000, PLACES_ASKED = 5, KNOWN_BEFORE = 51, TEXTS = 9 };

typedef struct question {
    uint16_t len, first_cut, cuts;
    uint8_t separator, flags, missing_len, columns;
    uint8_t rows, room; /* that are asked for; that each array has */
    uint8_t bad_room, allows_returns;
} question;

/* What a call answered. */
typedef struct answer {
    uint64_t status, column, rows, bad_rows, place;
} answer;

typedef struct target {
    uint8_t type, may_miss; /* 0, or from 1 on: u8, u16, u32, u64, i8, i16, i32, i64, and TEXTS */
    uint8_t point, places, takes_fewer;
    jadvolni_format format;
} target;

static question asked;
static target targets[MOST_COLUMNS];
static size_t widths[MOST_COLUMNS];
static char missing[UINT8_MAX], text[UINT16_MAX];
/* The bits of all rows: a part gets a copy of its own, since its first row has bit 0. */
static uint8_t bits[MOST_COLUMNS][(MOST_ROWS + 7) / 8];
/* What is known of bad rows. A part gets what is left of the array. */
static jadvolni_bad_row bad[UINT8_MAX];

/* The call's memory: each array in a mapping of its own, at one of its ends. */
enum { TEXT, MISSING, TABLE, WIDTHS, COLUMNS, BAD, NUMBERS, BITS = NUMBERS + MOST_COLUMNS, REGIONS = BITS + MOST_COLUMNS };
static char *regions[REGIONS];
static bool at_end;

static void *within(int region, size_t size)
{
    return regions[region] + (at_end ? REGION - size : 0);
}

/* Memory between two protected pages. */
static char *guarded(void)
{
    char *pages = mmap(NULL, REGION + 2 * GUARD, PROT_NONE, MAP_PRIVATE | MAP_ANONYMOUS, -1, 0);
    if (pages == MAP_FAILED || mprotect(pages + GUARD, REGION, PROT_READ | PROT_WRITE) != 0) exit(2);
    return pages + GUARD;
}

static void must_read(void *to, size_t size)
{
    if (size > 0 && fread(to, size, 1, stdin) != 1) exit(2);
}

/* ---- one call */

static size_t size_of_number(int column)
{
    if (targets[column].type == TEXTS) return sizeof(jadvolni_cell_text);
    return targets[column].type ? (size_t)1 << (targets[column].type - 1) % 4 : 0;
}

static size_t size_of_bits(size_t rows)
{
    return (rows + 7) / 8;
}

static void copy_bits(uint8_t *to, size_t to_row, const uint8_t *from, size_t from_row, size_t count)
{
    for (size_t k = 0; k < count; k++, to_row++, from_row++) {
        unsigned bit = from[from_row / 8] >> from_row % 8 & 1;
        to[to_row / 8] = (uint8_t)((to[to_row / 8] & ~(1u << to_row % 8)) | bit << to_row % 8);
    }
}

/* How many bits from a row on are copied: all that a byte has, also those behind the last row. */
static size_t bits_from(size_t row)
{
    size_t copied = 8 * size_of_bits(asked.room - row), all = 8 * size_of_bits(asked.room) - row;
    return copied < all ? copied : all;
}

#define ARRAY(number, name)                       \
    case number:                                  \
        column->name.numbers = numbers;           \
        column->name.capacity = asked.room - row; \
        break

/* A column whose array and bits begin with a row. */
static void set_column(jadvolni_table_column *column, int k, size_t row)
{
    size_t size = size_of_number(k);
    void *numbers = (char *)within(NUMBERS + k, size * asked.room) + size * row;
    column->format = targets[k].format;
    column->point = targets[k].point;
    column->places = targets[k].places;
    column->takes_fewer = targets[k].takes_fewer;
    switch (targets[k].type) {
    case 0: return;
        ARRAY(1, u8);
        ARRAY(2, u16);
        ARRAY(3, u32);
        ARRAY(4, u64);
        ARRAY(5, i8);
        ARRAY(6, i16);
        ARRAY(7, i32);
        ARRAY(8, i64);
    case TEXTS:
        column->text.texts = numbers;
        column->text.capacity = asked.room - row;
    }
    if (!targets[k].may_miss) return;
    column->present.size = size_of_bits(asked.room - row);
    column->present.bytes = within(BITS + k, column->present.size);
    copy_bits(column->present.bytes, 0, bits[k], row, bits_from(row));
}

static jadvolni_table *set_table(void)
{
    size_t size = asked.columns * sizeof *widths;
    jadvolni_table *table = within(TABLE, sizeof *table);
    *table = (jadvolni_table){.separator = asked.separator,
                              .has_returns = asked.flags & RETURNS,
                              .has_quotes = asked.flags & QUOTES,
                              .allows_blanks = asked.flags & BLANKS,
                              .skips_empty_rows = asked.flags & SKIPS,
                              .is_records = asked.flags & RECORDS,
                              .allows_returns = asked.allows_returns,
                              .missing = memcpy(within(MISSING, asked.missing_len), missing, asked.missing_len),
                              .missing_len = asked.missing_len};
    if (asked.flags & BY_WIDTHS) {
        table->widths = memcpy(within(WIDTHS, size), widths, size);
        table->width_count = asked.columns;
    }
    return table;
}

/* How many of the bad rows the array has. */
static size_t kept_of(uint64_t known)
{
    return known < asked.bad_room ? known : asked.bad_room;
}

/* Calls the library, after the bad rows of earlier calls. */
static answer call(const char *bytes, size_t len, bool is_last, const jadvolni_table *table, size_t capacity,
                   jadvolni_table_column *columns, uint64_t known)
{
    if (!(asked.flags & SKIPS_BAD)) {
        jadvolni_table_result r = jadvolni_parse_table(bytes, len, is_last, table, capacity, columns, asked.columns);
        return (answer){r.status, r.column, r.rows, 0, r.place};
    }
    size_t kept = kept_of(known), room = asked.bad_room - kept, size = room * sizeof *bad;
    jadvolni_bad_row *more = memcpy(within(BAD, size), bad + kept, size);
    jadvolni_skipping_result r =
        jadvolni_parse_table_skipping(bytes, len, is_last, table, capacity, columns, asked.columns, more, room);
    memcpy(bad + kept, more, size);
    return (answer){r.status, r.column, r.rows, r.bad_rows, r.place};
}

/* Reads a stretch of the text, whose first row is that one, after the bad rows of earlier calls. */
static answer read_rows(size_t start, size_t stop, bool is_last, size_t row, uint64_t known)
{
    static jadvolni_table_column before[MOST_COLUMNS];
    size_t count = asked.columns, size = count * sizeof *before;
    jadvolni_table *table = set_table(), same;
    jadvolni_table_column *columns = memset(within(COLUMNS, size), 0, size);
    for (int k = 0; k < asked.columns; k++) set_column(&columns[k], k, row);
    memcpy(&same, table, sizeof same);
    memcpy(before, columns, size);
    answer r = call(memcpy(within(TEXT, stop - start), text + start, stop - start), stop - start, is_last, table,
                    asked.rows - row, columns, known);
    if (memcmp(&same, table, sizeof same) != 0 || memcmp(before, columns, size) != 0) r.status = STRUCTS_CHANGED;
    for (int k = 0; k < asked.columns; k++)
        if (before[k].present.size > 0) copy_bits(bits[k], row, before[k].present.bytes, 0, bits_from(row));
    return r;
}

static jadvolni_row_result row_place(size_t row)
{
    return jadvolni_row_place(memcpy(within(TEXT, asked.len), text, asked.len), asked.len, set_table(), row);
}

/* The bad rows of the second part, counted in the text. The last one of the first part stopped where that did. */
static void move_bad_rows(answer first, answer rest)
{
    size_t kept = kept_of(first.bad_rows), all = kept_of(first.bad_rows + rest.bad_rows);
    if (kept > 0 && kept == first.bad_rows && bad[kept - 1].stop == first.place)
        bad[kept - 1].stop = row_place(bad[kept - 1].row).stop;
    for (size_t k = kept; k < all; k++) {
        bad[k].row += first.rows + first.bad_rows;
        bad[k].place += first.place;
        bad[k].start += first.place;
        bad[k].stop += first.place;
    }
}

/* The texts of a column from a row on, as before any call. */
static void clear_texts(int column, size_t row)
{
    jadvolni_cell_text *texts = within(NUMBERS + column, asked.room * sizeof *texts);
    memset(texts + row, NUMBERS_BEFORE, (asked.room - row) * sizeof *texts);
}

/* Counts the texts of a column from a row on in the whole text: the second part counts in itself. Where it read none, that
 * of the first part stands. A missing one, which has no bit, stays at 0. */
static void move_texts(int column, size_t row, size_t by, const jadvolni_cell_text *before)
{
    jadvolni_cell_text *texts = within(NUMBERS + column, asked.room * sizeof *texts);
    for (; row < asked.room; row++) {
        bool is_there = !targets[column].may_miss || bits[column][row / 8] >> row % 8 & 1;
        if (texts[row].has_doubled_quotes == NUMBERS_BEFORE) texts[row] = before[row];
        else if (is_there) texts[row].start += by;
    }
}

/* Reads a part of the text that isn't the last, and then what it left with the bytes that follow. */
static answer read_in_parts(size_t cut, bool is_last)
{
    static jadvolni_cell_text before[MOST_COLUMNS][UINT8_MAX];
    answer first = read_rows(0, cut, false, 0, 0), rest;
    if (first.status != JADVOLNI_OK || first.rows > asked.rows || first.place > cut) return first;
    for (int k = 0; k < asked.columns; k++) {
        if (targets[k].type != TEXTS) continue;
        memcpy(before[k], within(NUMBERS + k, asked.room * sizeof **before), asked.room * sizeof **before);
        clear_texts(k, first.rows);
    }
    rest = read_rows(first.place, asked.len, is_last, first.rows, first.bad_rows);
    for (int k = 0; k < asked.columns; k++)
        if (targets[k].type == TEXTS) move_texts(k, first.rows, first.place, before[k]);
    move_bad_rows(first, rest);
    rest.rows += first.rows;
    rest.bad_rows += first.bad_rows;
    rest.place += first.place;
    return rest;
}

/* ---- one question */

static void fill_arrays(void)
{
    memset(bits, BITS_BEFORE, sizeof bits);
    memset(bad, KNOWN_BEFORE, sizeof bad);
    for (int k = 0; k < asked.columns; k++) {
        size_t size = size_of_number(k) * asked.room;
        memset(within(NUMBERS + k, size), NUMBERS_BEFORE, size);
    }
}

/* Writes what is known of bad rows, and where the first rows are: behind it. */
static char *write_bad_rows(char *to, answer r)
{
    size_t size = asked.bad_room * sizeof *bad;
    memcpy(to, &r.bad_rows, sizeof r.bad_rows);
    char *end = (char *)memcpy(to + sizeof r.bad_rows, bad, size) + size;
    for (size_t row = 0; row < PLACES_ASKED; row++) {
        jadvolni_row_result place = row_place(row);
        uint64_t said[] = {place.status, place.start, place.stop};
        end = (char *)memcpy(end, said, sizeof said) + sizeof said;
    }
    return end;
}

/* Writes the numbers of a column, or where its texts stand, each flag as wide as a place: behind it. */
static char *write_values(char *to, int column)
{
    size_t size = size_of_number(column) * asked.room;
    const jadvolni_cell_text *texts = within(NUMBERS + column, size);
    if (targets[column].type != TEXTS) return (char *)memcpy(to, texts, size) + size;
    for (size_t row = 0; row < asked.room; row++) {
        uint64_t said[] = {texts[row].start, texts[row].size, texts[row].has_doubled_quotes};
        to = (char *)memcpy(to, said, sizeof said) + sizeof said;
    }
    return to;
}

/* Writes what was answered: how many bytes that is. */
static size_t write_answer(char *to, answer r)
{
    uint64_t said[] = {0, r.status, r.column, r.rows, r.place};
    char *end = (char *)memcpy(to, said, sizeof said) + sizeof said;
    for (int k = 0; k < asked.columns; k++) {
        size_t more = targets[k].may_miss ? size_of_bits(asked.room) : 0;
        end = (char *)memcpy(write_values(end, k), bits[k], more) + more;
    }
    if (asked.flags & SKIPS_BAD) end = write_bad_rows(end, r);
    return (size_t)(end - to);
}

static void answer_question(void)
{
    static char first[REGION], other[REGION];
    bool is_last = asked.flags & IS_LAST;
    size_t size = 0;
    for (uint64_t way = 0; way < 2 * (1 + (uint64_t)asked.cuts); way++) {
        at_end = way % 2 == 0;
        fill_arrays();
        answer r = way < 2 ? read_rows(0, asked.len, is_last, 0, 0)
                           : read_in_parts(asked.first_cut + (way - 2) / 2, is_last);
        size = write_answer(way == 0 ? first : other, r);
        if (way > 0 && memcmp(first, other, size) != 0) {
            memcpy(first, other, size);
            memcpy(first, &way, sizeof way);
            break;
        }
    }
    if (fwrite(first, size, 1, stdout) != 1) exit(2);
}

int main(void)
{
    for (int k = 0; k < REGIONS; k++) regions[k] = guarded();
    while (fread(&asked, sizeof asked, 1, stdin) == 1) {
        if (asked.columns > MOST_COLUMNS || asked.rows > asked.room) return 2;
        must_read(targets, asked.columns * sizeof *targets);
        must_read(widths, asked.columns * sizeof *widths);
        must_read(missing, asked.missing_len);
        must_read(text, asked.len);
        answer_question();
    }
    return fflush(stdout) == 0 ? 0 : 2;
}
