/*
 * rows.c - where the rows of a text stand: how many there are, and where it may be cut. The library reads
 * them: of a text that was cut elsewhere it would leave the rest.
 */
#define _GNU_SOURCE /* memrchr */
#include "core.h"

size_t count_of(const char *text, size_t len, char byte)
{
    enum { AT_ONCE = 240 }; /* a byte counts up to this many, in sixteen lanes */
    size_t found = 0;
    for (; len >= AT_ONCE; text += AT_ONCE, len -= AT_ONCE) {
        uint8_t part = 0;
        for (size_t k = 0; k < AT_ONCE; k++)
            part = (uint8_t)(part + (text[k] == byte));
        found += part;
    }
    for (size_t k = 0; k < len; k++)
        found += text[k] == byte;
    return found;
}

void put_bits(uint8_t *to, size_t at, const uint8_t *from, size_t count)
{
    unsigned shift = at % 8;
    to += at / 8;
    for (size_t k = 0; k < count; k += 8, to++, from++) {
        size_t left = count - k < 8 ? count - k : 8;
        unsigned ours = ((1u << left) - 1) << shift, bits = ((unsigned)*from << shift) & ours;
        *to = (uint8_t)((*to & ~ours) | bits);
        if (ours >> 8)
            to[1] = (uint8_t)((to[1] & ~(ours >> 8)) | bits >> 8);
    }
}

PyObject *move_bits(PyObject *module, PyObject *args)
{
    (void)module;
    Py_buffer to, from;
    Py_ssize_t at, count;
    if (!PyArg_ParseTuple(args, "w*ny*n", &to, &at, &from, &count))
        return NULL;
    int fits = at >= 0 && count >= 0 && at + count <= 8 * to.len && count <= 8 * from.len;
    if (fits)
        put_bits(to.buf, (size_t)at, from.buf, (size_t)count);
    else
        PyErr_SetString(PyExc_ValueError, "the bits have no room");
    PyBuffer_Release(&to);
    PyBuffer_Release(&from);
    return fits ? Py_NewRef(Py_None) : NULL;
}

PyObject *text_size(PyObject *module, PyObject *given)
{
    (void)module;
    borrowed_text text;
    if (borrow("text", given, &text) < 0)
        return NULL;
    give_back(&text);
    return PyLong_FromSize_t(text.len);
}

PyObject *lines_in(PyObject *module, PyObject *args)
{
    (void)module;
    PyObject *given;
    Py_ssize_t from, to;
    borrowed_text text;
    size_t lines = 0;
    if (!PyArg_ParseTuple(args, "Onn", &given, &from, &to) || borrow("text", given, &text) < 0)
        return NULL;
    size_t stop = (size_t)to < text.len ? (size_t)to : text.len, start = (size_t)from;
    Py_BEGIN_ALLOW_THREADS
    if (start < stop)
        lines = jadvolni_line_column(text.bytes + start, stop - start, stop - start).line;
    Py_END_ALLOW_THREADS
    give_back(&text);
    return PyLong_FromSize_t(lines);
}

/* A place that a caller has: one that no text reaches is as good as any other. -1 with an exception. */
static int place_of(PyObject *given, size_t *place)
{
    PyObject *number = PyNumber_Index(given);
    if (!number) {
        if (PyErr_ExceptionMatches(PyExc_TypeError)) {
            PyErr_Clear();
            raise_type("place", "an integer", given, "");
        }
        return -1;
    }
    int overflows = 0;
    long long signed_place = PyLong_AsLongLongAndOverflow(number, &overflows);
    int is_negative = overflows < 0 || (overflows == 0 && signed_place < 0);
    PyObject *shown = is_negative ? PyObject_Str(number) : NULL; /* (it may have too many digits for Python) */
    if (shown)
        PyErr_Format(PyExc_ValueError, "place has to be 0 or more, and not %U", shown);
    Py_XDECREF(shown);
    Py_DECREF(number);
    *place = overflows ? SIZE_MAX : (size_t)signed_place;
    return is_negative ? -1 : 0;
}

PyObject *line_column(PyObject *module, PyObject *const *args, Py_ssize_t count, PyObject *keywords)
{
    (void)module;
    static const char *const names[] = {"text", "place"};
    PyObject *found[2];
    borrowed_text text;
    jadvolni_position position;
    if (arguments("line_column", args, count, keywords, names, 2, 2, found) < 0)
        return NULL;
    if (!found[1]) {
        PyErr_SetString(PyExc_TypeError, "line_column() needs the argument 'place'");
        return NULL;
    }
    size_t place;
    if (place_of(found[1], &place) < 0 || borrow("text", found[0], &text) < 0)
        return NULL;
    Py_BEGIN_ALLOW_THREADS
    position = jadvolni_line_column(text.bytes, text.len, place);
    Py_END_ALLOW_THREADS
    give_back(&text);
    return Py_BuildValue("(nn)", (Py_ssize_t)position.line, (Py_ssize_t)position.column);
}

/* How many rows a text has at most: its lines, or its records of this size. */
static size_t rows_in(const borrowed_text *text, size_t record)
{
    return record ? text->len / record + (text->len % record > 0)
                  : field_count(text->bytes, text->len, '\n');
}

PyObject *row_count(PyObject *module, PyObject *args)
{
    (void)module;
    PyObject *given;
    Py_ssize_t record;
    borrowed_text text;
    size_t rows;
    if (!PyArg_ParseTuple(args, "On", &given, &record) || borrow("text", given, &text) < 0)
        return NULL;
    Py_BEGIN_ALLOW_THREADS
    rows = rows_in(&text, (size_t)record);
    Py_END_ALLOW_THREADS
    give_back(&text);
    return PyLong_FromSize_t(rows);
}

size_t row_end(const char *text, size_t len, size_t quotes, int has_quotes)
{
    if (!has_quotes) {
        const char *end = memchr(text, '\n', len);
        return end ? (size_t)(end - text) + 1 : 0;
    }
    for (size_t k = 0; k < len; k++) {
        quotes += text[k] == '"';
        if (text[k] == '\n' && quotes % 2 == 0)
            return k + 1;
    }
    return 0;
}

/* Where the last row of a text ends, given the number of quotes up to its end; or 0. */
static size_t last_row_end(const char *text, size_t len, size_t quotes, int has_quotes)
{
    if (!has_quotes) {
        const char *end = memrchr(text, '\n', len);
        return end ? (size_t)(end - text) + 1 : 0;
    }
    for (size_t k = len; k > 0; k--) {
        if (text[k - 1] == '\n' && quotes % 2 == 0)
            return k;
        quotes += text[k - 1] == '"';
    }
    return 0;
}

PyObject *row_ends(PyObject *module, PyObject *args)
{
    (void)module;
    PyObject *given;
    int has_quotes, is_within;
    borrowed_text text;
    size_t first, last, quotes;
    if (!PyArg_ParseTuple(args, "Opp", &given, &has_quotes, &is_within)
        || borrow("text", given, &text) < 0)
        return NULL;
    Py_BEGIN_ALLOW_THREADS
    quotes = (size_t)is_within + (has_quotes ? count_of(text.bytes, text.len, '"') : 0);
    first = row_end(text.bytes, text.len, (size_t)is_within, has_quotes);
    last = first ? last_row_end(text.bytes, text.len, quotes, has_quotes) : 0;
    Py_END_ALLOW_THREADS
    give_back(&text);
    return Py_BuildValue("(nnN)", (Py_ssize_t)first, (Py_ssize_t)last, PyBool_FromLong(quotes % 2));
}

/* Where the line ends that a byte of a text stands in, which starts with a line. */
static size_t line_end(const char *text, size_t len, size_t place, int has_quotes)
{
    size_t quotes = has_quotes ? count_of(text, place, '"') : 0;
    size_t end = row_end(text + place, len - place, quotes, has_quotes);
    return end ? place + end : len;
}

/* Where the record ends that a byte of a text stands in, which starts with a record. */
static size_t record_end(size_t len, size_t place, size_t record)
{
    size_t start = place / record * record;
    return record < len - start ? start + record : len;
}

/* Where the parts of a text stop, about this many, of equal size except that each ends with a row. */
static PyObject *stops_of(const borrowed_text *text, size_t count, int has_quotes, size_t record)
{
    size_t stop = 0;
    PyObject *stops = PyList_New(0);
    for (size_t left = count; stops && stop < text->len; left--) {
        const char *part = text->bytes + stop;
        size_t len = text->len - stop, place = left > 1 ? (len - 1) / left : len - 1;
        Py_BEGIN_ALLOW_THREADS
        stop += record ? record_end(len, place, record) : line_end(part, len, place, has_quotes);
        Py_END_ALLOW_THREADS
        PyObject *one = PyLong_FromSize_t(stop);
        if (!one || PyList_Append(stops, one) < 0)
            Py_CLEAR(stops);
        Py_XDECREF(one);
    }
    return stops;
}

PyObject *row_stops(PyObject *module, PyObject *args)
{
    (void)module;
    PyObject *given;
    Py_ssize_t count, record;
    int has_quotes;
    borrowed_text text;
    if (!PyArg_ParseTuple(args, "Onpn", &given, &count, &has_quotes, &record)
        || borrow("text", given, &text) < 0)
        return NULL;
    PyObject *stops = stops_of(&text, (size_t)count, has_quotes, (size_t)record);
    give_back(&text);
    return stops;
}

/* Gets memory and lets it go, so that the allocator keeps as much from then on. */
PyObject *keep_memory(PyObject *module, PyObject *size)
{
    (void)module;
    size_t bytes = PyLong_AsSize_t(size);
    if (PyErr_Occurred())
        return NULL;
    PyMem_Free(PyMem_Malloc(bytes));
    Py_RETURN_NONE;
}
