/*
 * columns.c - the fields of a text, each a number of an array.
 */
#include "core.h"

size_t field_count(const char *text, size_t len, uint8_t separator)
{
    return count_of(text, len, (char)separator) + (len > 0 && (uint8_t)text[len - 1] != separator);
}

/* Raises the fault of a column: of its format, or of the field with this index. The text stands behind
 * fields that were read before: its first one has their count as index, and starts where they end. */
static void raise_column(const core_state *state, jadvolni_result answer, size_t index,
                         const borrowed_text *text, uint8_t separator, const field_place *first)
{
    if (is_of_format(answer.status)) {
        raise_format(state, answer.status);
        return;
    }
    size_t at = jadvolni_field_start(text->bytes, answer.place, separator);
    const char *start = text->bytes + at;
    const char *end = memchr(start, separator, text->len - at);
    size_t len = end ? (size_t)(end - start) : text->len - at;
    field_place field = {first->index + index, first->start + at};
    answer.place += first->start;
    raise_fault(state, answer, start, len, &field);
}

/* An array.array of a type, filled with zeros. */
static PyObject *zeros(const core_state *state, const number_type *type, size_t count)
{
    if (count > PY_SSIZE_T_MAX / sizeof(uint64_t))
        return PyErr_NoMemory();
    return PySequence_Repeat(state->zeros[type - types], (Py_ssize_t)count);
}

/* Reads a text into a new array. */
static PyObject *column_of(const core_state *state, const number_type *type,
                           const borrowed_text *text, uint8_t separator,
                           const jadvolni_format *format, const field_place *first)
{
    Py_buffer room;
    size_t capacity, count;
    jadvolni_result answer;
    Py_BEGIN_ALLOW_THREADS
    capacity = field_count(text->bytes, text->len, separator);
    Py_END_ALLOW_THREADS
    PyObject *values = zeros(state, type, capacity);
    if (!values || PyObject_GetBuffer(values, &room, PyBUF_WRITABLE) < 0) {
        Py_XDECREF(values);
        return NULL;
    }
    Py_BEGIN_ALLOW_THREADS
    answer = type->column(text->bytes, text->len, separator, format, room.buf, capacity, &count);
    Py_END_ALLOW_THREADS
    PyBuffer_Release(&room);
    if (answer.status == JADVOLNI_OK && answer.place == text->len && count == capacity)
        return values;
    Py_DECREF(values);
    if (answer.status == JADVOLNI_OK)
        PyErr_SetString(PyExc_RuntimeError, "the text was changed while it was read");
    else
        raise_column(state, answer, count, text, separator, first);
    return NULL;
}

/* The column of the first four arguments, whose fields count on from a first one. */
static PyObject *column_behind(PyObject *module, PyObject *const *found, const field_place *first)
{
    jadvolni_format format;
    borrowed_text text;
    const number_type *type = type_of(found[1]);
    if (!type)
        return NULL;
    if (!type->array_code) {
        PyErr_Format(PyExc_ValueError, "type has to have 64 bits or fewer in a column, and not %s",
                     type->name);
        return NULL;
    }
    const core_state *state = PyModule_GetState(module);
    int separator = separator_of(found[2]);
    if (separator < 0 || format_of(state, found[3], &format) < 0
        || borrow("text", found[0], &text) < 0)
        return NULL;
    PyObject *values = column_of(state, type, &text, (uint8_t)separator, &format, first);
    give_back(&text);
    return values;
}

/* The arguments of parse_column. From the fifth on they ask for a table of one column. */
static const char *const NAMES[] = {"text", "type", "separator", "format",
                                    "has_returns", "allows_returns", "allows_blanks", "missing"};
enum { BY_PLACE = 4, FLAGS = 7, ARGUMENTS = 8 };

/* Whether a table of one column is asked for: by a flag, a mark or a Fixed. -1 with an exception. */
static int asks_for_table(const core_state *state, PyObject *const *found)
{
    notation written;
    int asks = found[FLAGS] && found[FLAGS] != Py_None;
    for (int k = BY_PLACE; asks == 0 && k < FLAGS; k++)
        asks = found[k] ? PyObject_IsTrue(found[k]) : 0;
    return asks ? asks : fixed_of(state, found[1], &written);
}

/* The arguments that were given, by their names, but for the separator. */
static PyObject *given_arguments(PyObject *const *found)
{
    PyObject *given = PyDict_New();
    for (int k = 0; given && k < ARGUMENTS; k++)
        if (k != 2 && found[k] && PyDict_SetItemString(given, NAMES[k], found[k]) < 0)
            Py_CLEAR(given);
    return given;
}

/* The column of a table, which Python reads. */
static PyObject *column_of_table(PyObject *const *found)
{
    int separator = separator_of(found[2]);
    if (separator != '\n') {
        if (separator >= 0)
            PyErr_SetString(PyExc_ValueError,
                            "separator has to be a line feed where returns, blanks, missing numbers or a "
                            "Fixed are asked for");
        return NULL;
    }
    PyObject *lines = PyImport_ImportModule("jadvolni._lines"), *column = NULL;
    PyObject *call = lines ? PyObject_GetAttrString(lines, "read_lines") : NULL;
    PyObject *none = PyTuple_New(0), *given = given_arguments(found);
    if (call && none && given)
        column = PyObject_Call(call, none, given);
    Py_XDECREF(lines);
    Py_XDECREF(call);
    Py_XDECREF(none);
    Py_XDECREF(given);
    return column;
}

PyObject *parse_column(PyObject *module, PyObject *const *args, Py_ssize_t count, PyObject *keywords)
{
    static const field_place first = {0, 0};
    PyObject *found[ARGUMENTS];
    if (arguments("parse_column", args, count, keywords, NAMES, BY_PLACE, ARGUMENTS, found) < 0)
        return NULL;
    int asks = asks_for_table(PyModule_GetState(module), found);
    if (asks < 0)
        return NULL;
    return asks ? column_of_table(found) : column_behind(module, found, &first);
}

/* The whole fields of a part of a text, for `iter_column`: `field` were read before, up to `start`. */
PyObject *parse_part(PyObject *module, PyObject *const *args, Py_ssize_t count)
{
    if (count != 6) {
        PyErr_SetString(PyExc_TypeError, "_parse_part takes six arguments");
        return NULL;
    }
    field_place first = {PyLong_AsSize_t(args[4]), PyLong_AsSize_t(args[5])};
    if (PyErr_Occurred())
        return NULL;
    return column_behind(module, args, &first);
}
