/*
 * core.h - what the parts of the extension `jadvolni._core` share.
 *
 * The library reads the texts. `types.c` has the types of numbers, `faults.c` the exceptions, `bounds.c` the
 * bounds of a number, `arguments.c` what the calls are given, `columns.c` columns, `tables.c` tables, `apart.c`
 * whether their arrays have memory of their own, `rows.c` where their rows end, `cells.c` the cells of a row
 * and those at fault, `texts.c` their texts, `arrow.c` tables for Arrow, `literals.c` literals, and `_core.c` the
 * other calls and the module. `Format` and `Fixed` are Python, and hand their bytes over as `_fields` and `_fixed`.
 */
#ifndef JADVOLNI_PYTHON_CORE_H
#define JADVOLNI_PYTHON_CORE_H

/* The stable ABI from 3.11 on, so that one extension serves all later versions. */
#define Py_LIMITED_API 0x030B0000
#define PY_SSIZE_T_CLEAN
#include <Python.h>

#include <stddef.h>
#include <stdint.h>
#include <string.h>

#include "jadvolni.h"

/* ---- types.c ---- */

/* A number of any type, as the library writes it. */
typedef union number {
    uint8_t u8;
    uint16_t u16;
    uint32_t u32;
    uint64_t u64;
    jadvolni_uint128 u128;
    size_t usize;
    int8_t i8;
    int16_t i16;
    int32_t i32;
    int64_t i64;
    jadvolni_int128 i128;
    ptrdiff_t isize;
} number;

typedef jadvolni_result parse_call(const char *text, size_t len, const jadvolni_format *format,
                                   void *value);
typedef jadvolni_result fixed_call(const char *text, size_t len, const jadvolni_fixed *fixed,
                                   void *value);
typedef jadvolni_result column_call(const char *text, size_t len, uint8_t separator,
                                    const jadvolni_format *format, void *values, size_t capacity,
                                    size_t *count);

/* What a type is called, here and by NumPy, its code in the library's tables of suffixes, that of its arrays
 * (none for 128 bits), and its calls. */
typedef struct number_type {
    const char *name;
    uint32_t code;
    const char *numpy_name;
    const char *array_code;
    parse_call *whole;
    parse_call *front;
    parse_call *partial;
    fixed_call *fixed;
    fixed_call *fixed_front;
    column_call *column;
    PyObject *(*number)(const number *value);
    size_t size;  /* the bytes of a number of an array, and where a table's column has that array */
    size_t array;
} number_type;

enum { TYPES = 12 };
extern const number_type types[TYPES];
extern const number_type *const widest_type; /* of those with a sign */

/* The type of a name, of a class with that name or of a dtype of NumPy, and i64 for NULL. NULL with an exception for what
 * is none. */
const number_type *type_of(PyObject *type);

/* high * 2^64 + low, as Python has it. */
PyObject *wide_number(const jadvolni_uint128 *halves);

/* ---- faults.c ---- */

/* What a module keeps: each interpreter has its own. Making these anew would cost a call more than
 * all else that it does. */
typedef struct core_state {
    PyObject *parse_error;
    PyObject *format_error;
    PyObject *fields_name;  /* the names of the attributes of a Format and a Fixed that have their bytes */
    PyObject *fixed_name;
    PyObject *zeros[TYPES]; /* for each type that columns have an array of one zero */
} core_state;

/* A text that was borrowed: a str, which is read as UTF-8, or an object of contiguous bytes. */
typedef struct borrowed_text {
    const char *bytes;
    size_t len;
    Py_buffer view;
    int has_view;
    PyObject *encoded; /* the bytes of a str that UTF-8 hasn't */
} borrowed_text;

/* A field of a column that has a fault: which one it is, and where it starts. */
typedef struct field_place {
    size_t index;
    size_t start;
} field_place;

/* Makes the module's exceptions. -1 with an exception where that fails. */
int make_exceptions(PyObject *module, core_state *state);

/* Whether a status is that of a format, which has no place. */
int is_of_format(uint32_t status);

/* Raises FormatError for a fault of a format. */
void raise_format(const core_state *state, uint32_t status);

/* Raises the fault of a text, or of a field of a column, whose bytes are the `len` at `text`. */
void raise_fault(const core_state *state, jadvolni_result answer, const char *text, size_t len,
                 const field_place *field);

/* Raises ParseError for a number that is out of bounds, with a message, which it takes over. */
void raise_bounds(const core_state *state, PyObject *message, PyObject *least, PyObject *most);

/* ---- how numbers are written ---- */

/* How a number is written: of a type, under a format or as a fixed-point number. */
typedef struct notation {
    const number_type *type;
    int is_fixed;
    jadvolni_format format;
    jadvolni_fixed fixed;
} notation;

/* Whether a type is a Fixed: then the notation has its bytes and its type. -1 with an exception. (arguments.c) */
int fixed_of(const core_state *state, PyObject *given, notation *written);

/* The notation of a type and a format, or of a Fixed, which has both. -1 with an exception. (arguments.c) */
int notation_of(const core_state *state, PyObject *type, PyObject *format, notation *written);

/* The number of a whole text, of another type than the notation's where that is asked for. */
static inline jadvolni_result whole_number(const borrowed_text *text, const number_type *type,
                                           const notation *written, number *value)
{
    if (written->is_fixed)
        return type->fixed(text->bytes, text->len, &written->fixed, value);
    return type->whole(text->bytes, text->len, &written->format, value);
}

/* ---- bounds.c ---- */

/* The least and the greatest number that a caller wants, or None. */
typedef struct bounds {
    PyObject *least;
    PyObject *most;
} bounds;

/* The bounds of two arguments, to be let go. -1 with an exception. */
int bounds_of(PyObject *least, PyObject *most, bounds *asked);

void let_go_bounds(bounds *asked);

/* The number of a whole text within bounds. NULL with an exception. */
PyObject *number_within(const core_state *state, const borrowed_text *text, const notation *written,
                        const bounds *asked);

/* ---- tables.c ---- */

/* The rows of a text from one place to another: _parse_table(text, from, to, is_last, how, columns, at,
 * capacity, bad), where `how` is separator, has_returns, has_quotes, allows_blanks, skips_empty_rows,
 * missing, widths, which are an array of size_t, is_records and allows_returns. A column is None, or its
 * numbers, bits or None, type or Fixed, format, and None; rows go there from `at` on. Or it is one of
 * texts: the numbers then are how many bytes each has, and the last is a bytearray, which gets these bytes.
 * It gives how many rows were read, how many bytes they had, how many bad rows were skipped, and the faults
 * that are reported. Where `bad` is -1, the first bad row ends the reading, and is reported. Else they are skipped:
 * 0 reports none; otherwise all are, since reading stops after that number. */
PyObject *parse_table(PyObject *module, PyObject *const *args, Py_ssize_t count);

/* The code of the arrays of a type, or of that of a Fixed, where a format goes with it: _array_code(type,
 * format=None). */
PyObject *array_code(PyObject *module, PyObject *args);

/* ---- rows.c ---- */

/* How many line feeds stand in a text from one place to another: _lines(text, from, to). */
PyObject *lines_in(PyObject *module, PyObject *args);

/* Line and column of a place: line_column(text, place). */
PyObject *line_column(PyObject *module, PyObject *const *args, Py_ssize_t count, PyObject *keywords);

/* Where a row ends, behind its line feed, given the quotes in its first bytes; or 0 where it goes on. */
size_t row_end(const char *text, size_t len, size_t quotes, int has_quotes);

/* How often a byte stands in a text. */
size_t count_of(const char *text, size_t len, char byte);

/* Puts bits behind those that there are at a place. All others stay as they are. */
void put_bits(uint8_t *to, size_t at, const uint8_t *from, size_t count);

/* put_bits, as _move_bits(to, at, from, count). */
PyObject *move_bits(PyObject *module, PyObject *args);

/* How many bytes a text has: _text_size(text). */
PyObject *text_size(PyObject *module, PyObject *given);

/* How many rows a text has at most: _row_count(text, record), where a record of 0 bytes stands for lines. */
PyObject *row_count(PyObject *module, PyObject *args);

/* Where the first and the last row end in a text, or 0 where none does, and whether the text ends within
 * quotes: _row_ends(text, has_quotes, is_within), where the latter says that it begins there. */
PyObject *row_ends(PyObject *module, PyObject *args);

/* Gets so much memory and lets it go, so that the allocator keeps as much: _keep_memory(size). */
PyObject *keep_memory(PyObject *module, PyObject *size);

/* Where parts stop that threads may read: _row_stops(text, count, has_quotes, record). */
PyObject *row_stops(PyObject *module, PyObject *args);

/* ---- cells.c ---- */

/* What is known of bad rows of a text, whose first bytes stand before the part that was read: a tuple for
 * each, of its kind, message, number among the rows that were read, column, place, start, stop, the start and
 * the first bytes of its wrong cell, and how many bytes it has before its end. */
PyObject *faults_of(const jadvolni_bad_row *bad, size_t count, const borrowed_text *part, size_t before,
                    const jadvolni_table *table);

/* The cells of a row between separators: _row_cells(row, separator, has_quotes). */
PyObject *row_cells(PyObject *module, PyObject *args);

/* ---- apart.c ---- */

/* Asks that arrays share no byte with each other, or with two texts. -1 with an exception. */
int ask_apart(const Py_buffer *rooms, Py_ssize_t count, const borrowed_text *text,
              const borrowed_text *missing);

/* ---- texts.c ---- */

/* Puts the bytes of texts behind those of a bytearray, and how many each has to its size. Each two of doubled
 * quotes are one. -1 with an exception. */
int put_texts(PyObject *bytes, const char *text, const jadvolni_cell_text *cells, size_t count,
              int64_t *sizes);

/* _text_list(data, offsets, bits, count, is_utf8) */
PyObject *text_list(PyObject *module, PyObject *args);

/* ---- arrow.c ---- */

/* Capsules for Arrow, of a table or of its one column: _arrow_schema(columns, is_table),
 * _arrow_array(columns, is_table, rows) and _arrow_stream(columns, rows). A column is its name, the code of
 * its numbers, these, their bits or None, and None. Of one of texts the code is U, or Z where they may be any
 * bytes, the numbers are where they start and the last one stops, and the last is their bytes. */
PyObject *arrow_schema_of(PyObject *module, PyObject *args);
PyObject *arrow_array_of(PyObject *module, PyObject *args);
PyObject *arrow_stream_of(PyObject *module, PyObject *args);

/* ---- literals.c ---- */

PyObject *parse_literal(PyObject *module, PyObject *const *args, Py_ssize_t count, PyObject *keywords);

PyObject *parse_typed_literal(PyObject *module, PyObject *const *args, Py_ssize_t count,
                              PyObject *keywords);

/* ---- columns.c ---- */

/* How many fields a text has. */
size_t field_count(const char *text, size_t len, uint8_t separator);

PyObject *parse_column(PyObject *module, PyObject *const *args, Py_ssize_t count, PyObject *keywords);

/* The whole fields of a part of a text: _parse_part(text, type, separator, format, field, start), where so
 * many fields were read before, up to `start`. */
PyObject *parse_part(PyObject *module, PyObject *const *args, Py_ssize_t count);

/* ---- arguments.c ---- */

/* Puts arguments, the first few by place and all by name, to the slots of their names. The first has to be
 * there. */
int arguments(const char *call, PyObject *const *args, Py_ssize_t count, PyObject *keywords,
              const char *const *names, Py_ssize_t by_place, Py_ssize_t most, PyObject **found);

/* Raises TypeError: the argument of a name has to be what is wanted, and was something else. */
void raise_type(const char *name, const char *wanted, PyObject *given, const char *detail);

/* The fields of a format, and the standard ones for None and NULL. -1 with an exception. */
int format_of(const core_state *state, PyObject *format, jadvolni_format *fields);

/* Lends the text that an argument of a name is, to be given back. -1 with an exception. */
int borrow(const char *name, PyObject *text, borrowed_text *borrowed);

void give_back(borrowed_text *borrowed);

/* The byte of a separator, and a line feed for NULL. -1 with an exception. */
int separator_of(PyObject *separator);

#endif
