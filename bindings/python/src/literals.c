/*
 * literals.c - literals with their suffixes, and with the types that these name.
 */
#include "core.h"

/* A number of 128 bits, the ASCII text behind it, and the place behind that. */
static PyObject *parts(const jadvolni_uint128 *value, const char *suffix, size_t len, size_t stop)
{
    PyObject *number = wide_number(value);
    if (!number)
        return NULL;
    return Py_BuildValue("(Ns#n)", number, suffix, (Py_ssize_t)len, (Py_ssize_t)stop);
}

PyObject *parse_literal(PyObject *module, PyObject *const *args, Py_ssize_t count, PyObject *keywords)
{
    static const char *const names[] = {"text", "format"};
    const core_state *state = PyModule_GetState(module);
    jadvolni_format format;
    jadvolni_uint128 value;
    size_t suffix;
    borrowed_text text;
    PyObject *found[2], *result = NULL;
    if (arguments("parse_literal", args, count, keywords, names, 2, 2, found) < 0
        || format_of(state, found[1], &format) < 0 || borrow("text", found[0], &text) < 0)
        return NULL;
    jadvolni_result answer = jadvolni_parse_literal(text.bytes, text.len, &format, &value, &suffix);
    if (answer.status == JADVOLNI_OK)
        result = parts(&value, text.bytes + suffix, answer.place - suffix, answer.place);
    else
        raise_fault(state, answer, text.bytes, text.len, NULL);
    give_back(&text);
    return result;
}

/* A table of suffixes: the pairs of a dict, which keep the bytes, and what the library has of each. */
typedef struct suffix_table {
    PyObject *pairs;
    jadvolni_suffix *entries;
    size_t count;
} suffix_table;

/* The entry of a suffix and a type. -1 with an exception. */
static int entry_of(PyObject *pair, jadvolni_suffix *entry)
{
    Py_ssize_t len = 0;
    PyObject *suffix = PyTuple_GetItem(pair, 0), *kind = PyTuple_GetItem(pair, 1);
    if (!suffix || !kind)
        return -1;
    if (!PyUnicode_Check(suffix)) {
        raise_type("each suffix", "a str", suffix, "");
        return -1;
    }
    const char *text = PyUnicode_AsUTF8AndSize(suffix, &len);
    const number_type *type = text ? type_of(kind) : NULL;
    if (!type)
        return -1;
    *entry = (jadvolni_suffix){text, (size_t)len, type->code, 0};
    return 0;
}

static void let_go_table(suffix_table *table)
{
    Py_XDECREF(table->pairs);
    PyMem_Free(table->entries);
}

/* The table of a dict, to be let go. -1 with an exception. */
static int table_of(PyObject *suffixes, suffix_table *table)
{
    if (!suffixes || !PyDict_Check(suffixes)) {
        raise_type("suffixes", "a dict", suffixes ? suffixes : Py_None, "");
        return -1;
    }
    table->pairs = PyDict_Items(suffixes);
    if (!table->pairs)
        return -1;
    table->count = (size_t)PyList_Size(table->pairs);
    table->entries = PyMem_Calloc(table->count + 1, sizeof *table->entries);
    if (!table->entries) {
        PyErr_NoMemory();
        return -1;
    }
    int made = 0;
    for (size_t k = 0; made == 0 && k < table->count; k++)
        made = entry_of(PyList_GetItem(table->pairs, (Py_ssize_t)k), &table->entries[k]);
    return made;
}

/* The literal of a text, by a table. */
static PyObject *typed_literal(const core_state *state, const borrowed_text *text,
                               const jadvolni_format *format, const suffix_table *table)
{
    jadvolni_uint128 value;
    size_t suffix, entry;
    jadvolni_result answer = jadvolni_parse_typed_literal(
        text->bytes, text->len, format, table->entries, table->count, &value, &suffix, &entry);
    if (answer.status != JADVOLNI_OK) {
        raise_fault(state, answer, text->bytes, text->len, NULL);
        return NULL;
    }
    PyObject *pair = PyList_GetItem(table->pairs, (Py_ssize_t)entry);
    PyObject *number = pair ? wide_number(&value) : NULL;
    if (!number)
        return NULL;
    return Py_BuildValue("(NOOn)", number, PyTuple_GetItem(pair, 0), PyTuple_GetItem(pair, 1),
                         (Py_ssize_t)answer.place);
}

PyObject *parse_typed_literal(PyObject *module, PyObject *const *args, Py_ssize_t count,
                              PyObject *keywords)
{
    static const char *const names[] = {"text", "suffixes", "format"};
    const core_state *state = PyModule_GetState(module);
    jadvolni_format format;
    borrowed_text text;
    suffix_table table = {0};
    PyObject *found[3], *result = NULL;
    if (arguments("parse_typed_literal", args, count, keywords, names, 3, 3, found) < 0)
        return NULL;
    if (table_of(found[1], &table) == 0 && format_of(state, found[2], &format) == 0
        && borrow("text", found[0], &text) == 0) {
        result = typed_literal(state, &text, &format, &table);
        give_back(&text);
    }
    let_go_table(&table);
    return result;
}
