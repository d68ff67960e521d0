/*
 * tables.c - the rows of a text, each column into a buffer of its own.
 */
#include "core.h"

/* An array of a column of the library, whatever its type. */
typedef struct array {
    void *numbers;
    size_t capacity;
} array;

/* A column of texts: where they stand, and where their bytes and sizes go. Without `cells` it is none. */
typedef struct text_column {
    jadvolni_cell_text *cells;
    PyObject *bytes;
    int64_t *sizes;
} text_column;

/* The columns of a call, and the buffers that they borrow: for each its numbers and its bits. Rows go there
 * from `at` on. Where that is within a byte of bits, the column has bits of its own in `apart`. */
typedef struct columns {
    jadvolni_table_column *columns;
    Py_buffer *rooms;
    uint8_t **apart;
    text_column *texts;
    Py_ssize_t count;
    size_t at;
    size_t capacity;
} columns;

/* The type of the bytes that have a column's bits. */
static const number_type BITS = {.name = "u8", .size = 1};

/* Gives back the buffers and the memory. */
static void let_go(columns *all)
{
    for (Py_ssize_t k = 0; all->rooms && k < 2 * all->count; k++)
        PyBuffer_Release(&all->rooms[k]);
    for (Py_ssize_t k = 0; all->apart && k < all->count; k++)
        PyMem_Free(all->apart[k]);
    for (Py_ssize_t k = 0; all->texts && k < all->count; k++)
        PyMem_Free(all->texts[k].cells);
    PyMem_Free(all->columns);
    PyMem_Free(all->rooms);
    PyMem_Free(all->apart);
    PyMem_Free(all->texts);
}

/* Whether a buffer is a row of numbers of a type, each at a place for it. */
static int has_type(const Py_buffer *room, const number_type *type)
{
    const char *signs = type->name[0] == 'u' ? "BHILQ" : "bhilq";
    return room->ndim == 1 && (size_t)room->itemsize == type->size && room->format
        && strlen(room->format) == 1 && strchr(signs, *room->format)
        && (room->len == 0 || (uintptr_t)room->buf % type->size == 0);
}

/* Borrows an array of a type for a column, to be written. -1 with an exception. */
static int lend(PyObject *values, const number_type *type, Py_buffer *room, Py_ssize_t index)
{
    if (PyObject_GetBuffer(values, room, PyBUF_WRITABLE | PyBUF_ND | PyBUF_FORMAT) < 0)
        return -1;
    if (has_type(room, type))
        return 0;
    PyErr_Format(PyExc_ValueError,
                 "out has to have aligned arrays of the columns' types, and of u8 for bits: one of "
                 "column %zd isn't of %s",
                 index + 1, type->name);
    return -1;
}

/* The bits of a column: those of its array, or where rows go there within a byte some of its own. */
static int bits_of(columns *all, Py_ssize_t index)
{
    jadvolni_table_column *column = &all->columns[index];
    const Py_buffer *room = &all->rooms[2 * index + 1];
    if ((size_t)room->len < (all->at + all->capacity + 7) / 8) {
        PyErr_SetString(PyExc_ValueError, "out has to have room for the bits of all rows");
        return -1;
    }
    column->present.bytes = (uint8_t *)room->buf + all->at / 8;
    column->present.size = (size_t)room->len - all->at / 8;
    if (all->at % 8 == 0)
        return 0;
    column->present.size = (all->capacity + 7) / 8;
    column->present.bytes = all->apart[index] = PyMem_Calloc(column->present.size + 1, 1);
    if (!column->present.bytes)
        PyErr_NoMemory();
    return column->present.bytes ? 0 : -1;
}

/* How the cells of a column are written. */
static void write_notation(const notation *written, jadvolni_table_column *column)
{
    if (!written->is_fixed) {
        column->format = written->format;
        return;
    }
    column->format = written->fixed.integer;
    column->point = written->fixed.point;
    column->places = written->fixed.places;
    column->takes_fewer = written->fixed.takes_fewer;
}

/* The numbers of a column, to its array. -1 with an exception. */
static int numbers_of(const core_state *state, PyObject *values, PyObject *kind, PyObject *format,
                      columns *all, Py_ssize_t index)
{
    jadvolni_table_column *column = &all->columns[index];
    Py_buffer *room = &all->rooms[2 * index];
    notation written;
    if (notation_of(state, kind, format, &written) < 0)
        return -1;
    const number_type *type = written.type;
    write_notation(&written, column);
    if (lend(values, type, room, index) < 0)
        return -1;
    size_t count = (size_t)room->len / type->size, at = all->at < count ? all->at : count;
    array it = {(char *)room->buf + at * type->size, count - at};
    memcpy((char *)column + type->array, &it, sizeof it);
    return 0;
}

/* The texts of a column, whose bytes a bytearray gets, and whose sizes an array. -1 with an exception. */
static int texts_of(PyObject *sizes, PyObject *bytes, columns *all, Py_ssize_t index)
{
    Py_buffer *room = &all->rooms[2 * index];
    text_column *texts = &all->texts[index];
    if (!PyByteArray_Check(bytes)) {
        raise_type("the bytes of texts", "a bytearray", bytes, "");
        return -1;
    }
    if (lend(sizes, type_of(NULL), room, index) < 0)
        return -1;
    size_t count = (size_t)room->len / sizeof *texts->sizes;
    if (count < all->at || count - all->at < all->capacity) {
        PyErr_SetString(PyExc_ValueError, "there has to be room for the sizes of all texts");
        return -1;
    }
    *texts = (text_column){PyMem_Calloc(all->capacity + 1, sizeof *texts->cells), bytes,
                           (int64_t *)room->buf + all->at};
    if (!texts->cells) {
        PyErr_NoMemory();
        return -1;
    }
    all->columns[index].text.texts = texts->cells;
    all->columns[index].text.capacity = all->capacity + 1;
    return 0;
}

/* A column that is read: its numbers, its bits or None, its type or its Fixed, its format, and the bytes of
 * texts or None. */
static int column_of(const core_state *state, PyObject *given, columns *all, Py_ssize_t index)
{
    PyObject *values, *bits, *kind, *format, *bytes;
    if (!PyArg_ParseTuple(given, "OOOOO", &values, &bits, &kind, &format, &bytes))
        return -1;
    int made = bytes == Py_None ? numbers_of(state, values, kind, format, all, index)
                                : texts_of(values, bytes, all, index);
    if (made < 0 || bits == Py_None)
        return made;
    return lend(bits, &BITS, &all->rooms[2 * index + 1], index) < 0 ? -1 : bits_of(all, index);
}

/* The columns of a tuple, of which None isn't read. -1 with an exception. */
static int columns_of(const core_state *state, PyObject *given, columns *all)
{
    Py_ssize_t count = PyTuple_Size(given);
    if (count < 0)
        return -1;
    all->columns = PyMem_Calloc((size_t)count + 1, sizeof *all->columns);
    all->rooms = PyMem_Calloc((size_t)count + 1, 2 * sizeof *all->rooms);
    all->apart = PyMem_Calloc((size_t)count + 1, sizeof *all->apart);
    all->texts = PyMem_Calloc((size_t)count + 1, sizeof *all->texts);
    all->count = count;
    int made = all->columns && all->rooms && all->apart && all->texts ? 0 : -1;
    if (made < 0)
        PyErr_NoMemory();
    for (Py_ssize_t k = 0; made == 0 && k < count; k++) {
        PyObject *one = PyTuple_GetItem(given, k);
        if (one != Py_None)
            made = column_of(state, one, all, k);
    }
    return made;
}

/* Puts the texts of the rows read to where they belong, and their bits, if these were kept apart. -1
 * with an exception. */
static int join(const columns *all, const borrowed_text *part, size_t rows)
{
    int made = 0;
    for (Py_ssize_t k = 0; made == 0 && k < all->count; k++) {
        const text_column *texts = &all->texts[k];
        if (all->apart[k])
            put_bits(all->rooms[2 * k + 1].buf, all->at, all->apart[k], rows);
        if (texts->cells)
            made = put_texts(texts->bytes, part->bytes, texts->cells, rows, texts->sizes);
    }
    return made;
}

/* What a call is asked: the part of a text from one place to another, how the table is written, and how many
 * bad rows it reports, or -1 where the first one ends the reading. */
typedef struct question {
    borrowed_text text;
    borrowed_text part;
    borrowed_text missing;
    Py_buffer widths;
    jadvolni_table table;
    size_t from;
    size_t to;
    int is_last;
    Py_ssize_t bad;
} question;

/* The bytes of a text from one place to another, or to its end. */
static borrowed_text part_of(const borrowed_text *text, size_t from, size_t to)
{
    size_t stop = to < text->len ? to : text->len, start = from < stop ? from : stop;
    return (borrowed_text){.bytes = text->bytes + start, .len = stop - start};
}

/* How a table is written: its separator, flags, what stands for a missing number, and widths. */
static int table_of(PyObject *given, jadvolni_table *table, borrowed_text *missing,
                    Py_buffer *widths)
{
    PyObject *separator, *mark, *sizes;
    int flags[6];
    if (!PyArg_ParseTuple(given, "OppppOOpp", &separator, &flags[0], &flags[1], &flags[2], &flags[3],
                          &mark, &sizes, &flags[4], &flags[5]))
        return -1;
    int byte = separator_of(separator);
    if (byte < 0 || borrow("missing", mark, missing) < 0
        || PyObject_GetBuffer(sizes, widths, PyBUF_SIMPLE) < 0)
        return -1;
    *table = (jadvolni_table){
        .separator = (uint8_t)byte,
        .has_returns = (uint8_t)flags[0],
        .has_quotes = (uint8_t)flags[1],
        .allows_blanks = (uint8_t)flags[2],
        .skips_empty_rows = (uint8_t)flags[3],
        .is_records = (uint8_t)flags[4],
        .allows_returns = (uint8_t)flags[5],
        .missing = missing->bytes,
        .missing_len = missing->len,
        .widths = widths->buf,
        .width_count = (size_t)widths->len / sizeof(size_t),
    };
    return 0;
}

/* The rows of a part of a text, up to the first bad one. */
static PyObject *rows_of(const core_state *state, const question *asked, columns *all)
{
    const borrowed_text *part = &asked->part;
    jadvolni_table_result answer;
    jadvolni_row_result row = {0};
    Py_BEGIN_ALLOW_THREADS
    answer = jadvolni_parse_table(part->bytes, part->len, asked->is_last, &asked->table, all->capacity,
                                  all->columns, (size_t)all->count);
    if (answer.status != JADVOLNI_OK && !is_of_format(answer.status))
        row = jadvolni_row_place(part->bytes, part->len, &asked->table, answer.rows);
    Py_END_ALLOW_THREADS
    if (join(all, part, answer.rows) < 0)
        return NULL;
    if (answer.status == JADVOLNI_OK)
        return Py_BuildValue("(nnn())", (Py_ssize_t)answer.rows, (Py_ssize_t)answer.place, (Py_ssize_t)0);
    if (is_of_format(answer.status)) {
        raise_format(state, answer.status);
        return NULL;
    }
    jadvolni_bad_row bad = {.status = answer.status, .row = answer.rows, .column = answer.column,
                            .place = answer.place, .start = row.start, .stop = row.stop};
    return Py_BuildValue("(nnnN)", (Py_ssize_t)answer.rows, (Py_ssize_t)row.start, (Py_ssize_t)0,
                         faults_of(&bad, 1, part, asked->from, &asked->table));
}

/* The right rows of a part of a text, and the bad ones among them, up to a number, if these are reported. */
static PyObject *right_rows_of(const core_state *state, const question *asked, columns *all)
{
    const borrowed_text *part = &asked->part;
    size_t most = (size_t)asked->bad, room = most < part->len ? most : part->len;
    jadvolni_skipping_result answer;
    jadvolni_bad_row *bad = PyMem_Calloc(room + 1, sizeof *bad);
    if (!bad)
        return PyErr_NoMemory();
    Py_BEGIN_ALLOW_THREADS
    answer = jadvolni_parse_table_skipping(part->bytes, part->len, asked->is_last, &asked->table,
                                           all->capacity, all->columns, (size_t)all->count, bad, room);
    Py_END_ALLOW_THREADS
    if (room && answer.bad_rows > room) { /* as if the text had ended behind the last one that is reported */
        answer.rows = bad[room - 1].row - (room - 1);
        answer.place = bad[room - 1].stop;
        answer.bad_rows = room;
    }
    PyObject *result = NULL;
    int made = join(all, part, answer.rows);
    if (made == 0 && answer.status == JADVOLNI_OK)
        result = Py_BuildValue(
            "(nnnN)", (Py_ssize_t)answer.rows, (Py_ssize_t)answer.place, (Py_ssize_t)answer.bad_rows,
            faults_of(bad, room ? answer.bad_rows : 0, part, asked->from, &asked->table));
    else if (made == 0)
        raise_format(state, answer.status);
    PyMem_Free(bad);
    return result;
}

/* Asks for the rows of a part of a text. */
static PyObject *answer_of(const core_state *state, question *asked, PyObject *const *args, columns *all)
{
    if (table_of(args[4], &asked->table, &asked->missing, &asked->widths) < 0
        || borrow("text", args[0], &asked->text) < 0)
        return NULL;
    asked->part = part_of(&asked->text, asked->from, asked->to);
    if (all->capacity > asked->part.len) /* (a row has a byte, also a bad one) */
        all->capacity = asked->part.len;
    if (columns_of(state, args[5], all) < 0
        || ask_apart(all->rooms, 2 * all->count, &asked->part, &asked->missing) < 0)
        return NULL;
    return asked->bad < 0 ? rows_of(state, asked, all) : right_rows_of(state, asked, all);
}

PyObject *parse_table(PyObject *module, PyObject *const *args, Py_ssize_t count)
{
    if (count != 9) {
        PyErr_SetString(PyExc_TypeError, "_parse_table takes nine arguments");
        return NULL;
    }
    question asked = {.from = PyLong_AsSize_t(args[1]), .to = PyLong_AsSize_t(args[2]),
                      .is_last = PyObject_IsTrue(args[3]), .bad = PyLong_AsSsize_t(args[8])};
    columns all = {.at = PyLong_AsSize_t(args[6]), .capacity = PyLong_AsSize_t(args[7])};
    PyObject *rows = NULL;
    if (!PyErr_Occurred())
        rows = answer_of(PyModule_GetState(module), &asked, args, &all);
    give_back(&asked.text);
    give_back(&asked.missing);
    PyBuffer_Release(&asked.widths);
    let_go(&all);
    return rows;
}

PyObject *array_code(PyObject *module, PyObject *args)
{
    PyObject *given, *format = NULL;
    notation written;
    if (!PyArg_ParseTuple(args, "O|O", &given, &format)
        || notation_of(PyModule_GetState(module), given, format, &written) < 0)
        return NULL;
    const number_type *type = written.type;
    if (!type->array_code)
        PyErr_Format(PyExc_ValueError, "type has to have 64 bits or fewer in a column, and not %s",
                     type->name);
    return type->array_code ? PyUnicode_FromString(type->array_code) : NULL;
}
