/*
 * _core.c - the library `jadvolni` for Python: the calls, and the module.
 */
#include "core.h"

/* ---- one number ---- */

/* A text, and how its number is written. */
typedef struct question {
    notation written;
    borrowed_text text;
} question;

/* What a call was asked, by its arguments: their names, which are `most`, and what was found of them. The
 * text has to be given back where it is 0. */
static int question_of(PyObject *module, const char *call, PyObject *const *args, Py_ssize_t count,
                       PyObject *keywords, Py_ssize_t most, PyObject **found, question *asked)
{
    static const char *const names[] = {"text", "type", "format", "min", "max"};
    if (arguments(call, args, count, keywords, names, 3, most, found) < 0)
        return -1;
    if (notation_of(PyModule_GetState(module), found[1], found[2], &asked->written) < 0)
        return -1;
    return borrow("text", found[0], &asked->text);
}

/* The number of a text within bounds. */
static PyObject *bounded(const core_state *state, const question *asked, PyObject *const *given)
{
    bounds between;
    PyObject *result = NULL;
    if (bounds_of(given[0], given[1], &between) == 0)
        result = number_within(state, &asked->text, &asked->written, &between);
    let_go_bounds(&between);
    return result;
}

static PyObject *parse(PyObject *module, PyObject *const *args, Py_ssize_t count,
                       PyObject *keywords)
{
    question asked;
    number value;
    PyObject *found[5], *result = NULL;
    if (question_of(module, "parse", args, count, keywords, 5, found, &asked) < 0)
        return NULL;
    if (found[3] || found[4]) {
        result = bounded(PyModule_GetState(module), &asked, found + 3);
        give_back(&asked.text);
        return result;
    }
    const number_type *type = asked.written.type;
    jadvolni_result answer = whole_number(&asked.text, type, &asked.written, &value);
    if (answer.status == JADVOLNI_OK)
        result = type->number(&value);
    else
        raise_fault(PyModule_GetState(module), answer, asked.text.bytes, asked.text.len, NULL);
    give_back(&asked.text);
    return result;
}

/* A number and a place. */
static PyObject *pair(PyObject *read, PyObject *place)
{
    PyObject *result = read && place ? PyTuple_Pack(2, read, place) : NULL;
    Py_XDECREF(read);
    Py_XDECREF(place);
    return result;
}

/* What a call on a front has answered: the number and the place. */
static PyObject *answer_of(PyObject *module, question *asked, jadvolni_result answer,
                           const number *value)
{
    PyObject *result = NULL;
    if (answer.status == JADVOLNI_OK)
        result = pair(asked->written.type->number(value), PyLong_FromSize_t(answer.place));
    else
        raise_fault(PyModule_GetState(module), answer, asked->text.bytes, asked->text.len, NULL);
    give_back(&asked->text);
    return result;
}

static PyObject *parse_front(PyObject *module, PyObject *const *args, Py_ssize_t count,
                             PyObject *keywords)
{
    question asked;
    number value;
    PyObject *found[3];
    if (question_of(module, "parse_front", args, count, keywords, 3, found, &asked) < 0)
        return NULL;
    const notation *written = &asked.written;
    const borrowed_text *text = &asked.text;
    jadvolni_result answer =
        written->is_fixed
            ? written->type->fixed_front(text->bytes, text->len, &written->fixed, &value)
            : written->type->front(text->bytes, text->len, &written->format, &value);
    return answer_of(module, &asked, answer, &value);
}

static PyObject *parse_partial(PyObject *module, PyObject *const *args, Py_ssize_t count,
                               PyObject *keywords)
{
    question asked;
    number value;
    PyObject *found[3];
    if (question_of(module, "parse_partial", args, count, keywords, 3, found, &asked) < 0)
        return NULL;
    const notation *written = &asked.written;
    const borrowed_text *text = &asked.text;
    if (written->is_fixed) {
        PyErr_SetString(PyExc_TypeError, "parse_partial() reads no Fixed: take parse_front()");
        give_back(&asked.text);
        return NULL;
    }
    return answer_of(
        module, &asked,
        written->type->partial(text->bytes, text->len, &written->format, &value), &value);
}

/* ---- formats ---- */

static PyObject *check_format(PyObject *module, PyObject *fields)
{
    jadvolni_format format;
    if (format_of(PyModule_GetState(module), fields, &format) < 0)
        return NULL;
    uint32_t invalid = jadvolni_format_error(&format);
    if (invalid != JADVOLNI_OK) {
        raise_format(PyModule_GetState(module), invalid);
        return NULL;
    }
    Py_RETURN_NONE;
}

static PyObject *check_fixed(PyObject *module, PyObject *fixed)
{
    notation written;
    if (notation_of(PyModule_GetState(module), fixed, NULL, &written) < 0)
        return NULL;
    uint32_t invalid = written.is_fixed ? jadvolni_fixed_error(&written.fixed) : JADVOLNI_OK;
    if (invalid != JADVOLNI_OK) {
        raise_format(PyModule_GetState(module), invalid);
        return NULL;
    }
    Py_RETURN_NONE;
}

/* ---- the module ---- */

#define CALL(name, text) \
    {#name, (PyCFunction)(void (*)(void))name, METH_FASTCALL | METH_KEYWORDS, text}

static PyMethodDef METHODS[] = {
    CALL(parse,
         "parse(text, type=\"i64\", format=None, *, min=None, max=None)\n--\n\n"
         "Return the number that the whole text stands for.\n\n"
         "The text is a str, read as UTF-8, or an object of contiguous bytes. ParseError says\n"
         "why it isn't a number of the type, or that it is less than `min` or greater than `max`;\n"
         "FormatError says which rule the format breaks. A bound that the type lacks counts as\n"
         "the type's end. Another ValueError says that `min` is greater than `max`, also where\n"
         "one of them is the type's end. With a Fixed as the type, the number is a fixed-point\n"
         "number, in units of its last place, and so are the bounds."),
    CALL(parse_front,
         "parse_front(text, type=\"i64\", format=None)\n--\n\n"
         "Return the number at the beginning of the text, and its length in bytes. A Fixed may\n"
         "be the type.\n\n"
         "If no digit was read, ParseError has the place where reading stopped, unless the type\n"
         "is a Fixed whose format requires no digit. If more bytes may come, a result at the\n"
         "text's end isn't final: 12 may continue as 123. Neither is one before separators that\n"
         "end the text: 1_ may continue as 1_0. Nor, of a Fixed, one before a point or separators\n"
         "that end the text: 12. may continue as 12.5."),
    CALL(parse_partial,
         "parse_partial(text, type=\"i64\", format=None)\n--\n\n"
         "As parse_front, but digits may be missing.\n\n"
         "Without them it usually returns 0: use parse_front if you need a number."),
    CALL(parse_literal,
         "parse_literal(text, format=None)\n--\n\n"
         "Return the literal at the beginning of the text: its value, its suffix, and its length\n"
         "in bytes.\n\n"
         "Pass the format of the literal's language: without one the number is decimal digits, and\n"
         "0xFFull is 0 with the suffix xFFull. The suffix is all ASCII letters, digits 0 to 9 and\n"
         "\"_\" that follow the number; the caller decides which are valid. The format's own\n"
         "base_suffix, as the L of Java and Kotlin or the n of JavaScript, is part of the number:\n"
         "clear it, and case_sensitive_base_suffix, to get it as the suffix. The value has up to\n"
         "128 bits. It has no minus under any format, and a plus if the format allows one."),
    CALL(parse_typed_literal,
         "parse_typed_literal(text, suffixes, format=None)\n--\n\n"
         "Return the literal at the beginning of the text as the type that its suffix names: its\n"
         "value, its suffix, the type, and its length in bytes.\n\n"
         "suffixes: a dict of suffixes and their types, matched byte for byte. The empty suffix\n"
         "is for literals without one. ParseError is for a digit after the number, a suffix that\n"
         "isn't in the dict, or a number that leaves its type. A literal has no minus: if one\n"
         "widens the range, let the suffix name the unsigned type. Without a format, and of the\n"
         "format's own base_suffix, what parse_literal says is true here too: 1L of Java has the\n"
         "type of the empty suffix."),
    CALL(parse_column,
         "parse_column(text, type=\"i64\", separator=b\"\\n\", format=None, *, has_returns=False, "
         "allows_returns=False, allows_blanks=False, missing=None)\n--\n\n"
         "Return the numbers of the text's fields, as an array.array.\n\n"
         "A field is the bytes up to a separator, which may be any byte; a separator at the end\n"
         "starts no further field. ParseError has the first field that isn't a number, as `field`\n"
         "and `start`, and its `place` counts from the start of the text. The GIL is released: no\n"
         "other thread may change the text meanwhile.\n\n"
         "The other arguments are for lines, which are then read as a table of one column.\n"
         "has_returns: each line feed has a carriage return before it. allows_returns: it may\n"
         "have one, so that each line may end either way. allows_blanks: spaces and tabs may\n"
         "surround a number or `missing`. missing: what stands for a missing number; the column\n"
         "is then a Sparse, and with None no number may be missing. type: a Fixed reads amounts."),
    CALL(line_column,
         "line_column(text, place)\n--\n\n"
         "Return the line and column of a place of a text, both from 0: the number of line feeds\n"
         "before it, and the number of bytes after the last of them.\n\n"
         "Editors count from 1. A place past the end of the text counts as its end."),
    {"_parse_part", (PyCFunction)(void (*)(void))parse_part, METH_FASTCALL,
     "A column whose fields count on from those of the parts before it."},
    {"_parse_table", (PyCFunction)(void (*)(void))parse_table, METH_FASTCALL,
     "The rows of a text from one place to another, each column into a buffer."},
    {"_keep_memory", keep_memory, METH_O, "Has the allocator keep so much."},
    {"_text_size", text_size, METH_O, "How many bytes a text has."},
    {"_move_bits", move_bits, METH_VARARGS, "Puts bits behind those before a place."},
    {"_row_cells", row_cells, METH_VARARGS, "The cells of a row."},
    {"_text_list", text_list, METH_VARARGS, "The texts of a column, or None where their places are none."},
    {"_row_ends", row_ends, METH_VARARGS, "Where the first and the last row end in a text."},
    {"_arrow_schema", arrow_schema_of, METH_VARARGS, "What Arrow calls a table or a column."},
    {"_arrow_array", arrow_array_of, METH_VARARGS, "A table or a column for Arrow."},
    {"_arrow_stream", arrow_stream_of, METH_VARARGS, "A table for Arrow, as a stream of one."},
    {"_row_count", row_count, METH_VARARGS, "How many rows a text has at most."},
    {"_row_stops", row_stops, METH_VARARGS, "Where the parts of a text stop, about this many, each with a row."},
    {"_array_code", array_code, METH_VARARGS, "The code of the arrays of a type, where a format goes with it."},
    {"_check_format", check_format, METH_O, "Raises FormatError where a format is invalid."},
    {"_check_fixed", check_fixed, METH_O, "Raises FormatError where a Fixed is invalid."},
    {"_lines", lines_in, METH_VARARGS, "How many line feeds stand between two places."},
    {NULL, NULL, 0, NULL},
};

/* Makes the arrays of one zero. -1 with an exception. */
static int make_zeros(core_state *state)
{
    PyObject *module = PyImport_ImportModule("array");
    if (!module)
        return -1;
    int made = 0;
    for (int k = 0; k < TYPES && made == 0; k++)
        if (types[k].array_code) {
            state->zeros[k] = PyObject_CallMethod(module, "array", "s(i)", types[k].array_code, 0);
            made = state->zeros[k] ? 0 : -1;
        }
    Py_DECREF(module);
    return made;
}

static int execute(PyObject *module)
{
    core_state *state = PyModule_GetState(module);
    state->fields_name = PyUnicode_InternFromString("_fields");
    state->fixed_name = PyUnicode_InternFromString("_fixed");
    if (!state->fields_name || !state->fixed_name || make_exceptions(module, state) < 0 || make_zeros(state) < 0)
        return -1;
    return PyModule_AddStringConstant(module, "__version__", JADVOLNI_VERSION_STRING);
}

static int traverse(PyObject *module, visitproc visit, void *arg)
{
    core_state *state = PyModule_GetState(module);
    Py_VISIT(state->parse_error);
    Py_VISIT(state->format_error);
    Py_VISIT(state->fields_name);
    Py_VISIT(state->fixed_name);
    for (int k = 0; k < TYPES; k++)
        Py_VISIT(state->zeros[k]);
    return 0;
}

static int clear(PyObject *module)
{
    core_state *state = PyModule_GetState(module);
    Py_CLEAR(state->parse_error);
    Py_CLEAR(state->format_error);
    Py_CLEAR(state->fields_name);
    Py_CLEAR(state->fixed_name);
    for (int k = 0; k < TYPES; k++)
        Py_CLEAR(state->zeros[k]);
    return 0;
}

static void release(void *module)
{
    clear(module);
}

/* What the stable ABI has from 3.12 on. */
#ifndef Py_mod_multiple_interpreters
#define Py_mod_multiple_interpreters 3
#define Py_MOD_PER_INTERPRETER_GIL_SUPPORTED ((void *)2)
#endif

static PyModuleDef_Slot SLOTS[] = {
    {Py_mod_exec, execute},
    {Py_mod_multiple_interpreters, Py_MOD_PER_INTERPRETER_GIL_SUPPORTED},
    {0, NULL},
};

static struct PyModuleDef MODULE = {
    .m_base = PyModuleDef_HEAD_INIT,
    .m_name = "jadvolni._core",
    .m_doc = "Integers from bytes, by the library jadvolni.",
    .m_size = sizeof(core_state),
    .m_methods = METHODS,
    .m_slots = SLOTS,
    .m_traverse = traverse,
    .m_clear = clear,
    .m_free = release,
};

PyMODINIT_FUNC PyInit__core(void)
{
    /* 3.11 refuses a slot that it doesn't know, and its interpreters share one lock. */
    if (Py_Version < 0x030C0000)
        SLOTS[1] = (PyModuleDef_Slot){0, NULL};
    return PyModuleDef_Init(&MODULE);
}
