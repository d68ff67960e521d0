/*
 * faults.c - the exceptions that say what is wrong with a text or a format.
 */
#include "core.h"

/* How many bytes of a text a message shows. */
enum { SHOWN = 64 };

/* Makes an exception of the module, with the attributes that it has where nothing sets them. */
static PyObject *exception(PyObject *module, const char *name, const char *path, const char *text)
{
    PyObject *attributes =
        Py_BuildValue("{s:s,s:O,s:O,s:O,s:O,s:O,s:O,s:O,s:O,s:O,s:O,s:O,s:O}", "kind", "", "place",
                      Py_None, "field", Py_None, "start", Py_None, "row", Py_None, "line", Py_None,
                      "column", Py_None, "name", Py_None, "row_start", Py_None, "row_stop", Py_None,
                      "text", Py_None, "min", Py_None, "max", Py_None);
    PyObject *made = NULL;
    if (attributes)
        made = PyErr_NewExceptionWithDoc(path, text, PyExc_ValueError, attributes);
    Py_XDECREF(attributes);
    if (made && PyModule_AddObjectRef(module, name, made) < 0)
        Py_CLEAR(made);
    return made;
}

int make_exceptions(PyObject *module, core_state *state)
{
    state->parse_error = exception(
        module, "ParseError", "jadvolni.ParseError",
        "A text isn't a number of its type under its format.\n\n"
        "kind: what is wrong, as \"Overflow\". place: the offset of the wrong byte in the text.\n"
        "min, max: the bounds, if the kind is \"OutOfBounds\"; the place is then 0.\n"
        "field, start: in a column, the field's index and the place of its first byte.\n"
        "row, column: in a table, the wrong cell. name: that of its column.\n"
        "line: the number of line feeds before the place. row_start, row_stop: where its row is.\n"
        "text: the first 40 bytes of the cell.\n\n"
        "All count from 0; messages count lines, rows, columns and fields from 1, and bytes from 0.");
    if (!state->parse_error)
        return -1;
    state->format_error = exception(
        module, "FormatError", "jadvolni.FormatError",
        "A format is invalid. kind: the rule that it breaks, as \"InvalidMantissaRadix\".");
    return state->format_error ? 0 : -1;
}

/* Sets an attribute of an exception, and lets go of its value. */
static int set_attribute(PyObject *error, const char *name, PyObject *value)
{
    int set = value ? PyObject_SetAttrString(error, name, value) : -1;
    Py_XDECREF(value);
    return set;
}

/* An exception of a type with a message, which it takes over, and a kind. */
static PyObject *error_of(PyObject *type, PyObject *message, const char *kind)
{
    PyObject *error = message ? PyObject_CallFunctionObjArgs(type, message, NULL) : NULL;
    Py_XDECREF(message);
    if (error && set_attribute(error, "kind", PyUnicode_FromString(kind)) < 0)
        Py_CLEAR(error);
    return error;
}

int is_of_format(uint32_t status)
{
    return (status >= JADVOLNI_INVALID_MANTISSA_RADIX && status < JADVOLNI_TOO_FEW_CELLS)
        || status == JADVOLNI_INVALID_TABLE
        || (status > JADVOLNI_MISPLACED_QUOTE && status != JADVOLNI_UNKNOWN_SUFFIX);
}

void raise_format(const core_state *state, uint32_t status)
{
    PyObject *message = PyUnicode_FromString(jadvolni_status_text(status));
    PyObject *error = error_of(state->format_error, message, jadvolni_status_name(status));
    if (error)
        PyErr_SetObject(state->format_error, error);
    Py_XDECREF(error);
}

/* The first bytes of a text, as a message shows them. */
static PyObject *shown_bytes(const char *text, size_t len)
{
    PyObject *bytes = PyBytes_FromStringAndSize(text, (Py_ssize_t)(len > SHOWN ? SHOWN : len));
    PyObject *shown = bytes ? PyUnicode_FromFormat("%R%s", bytes, len > SHOWN ? ".." : "") : NULL;
    Py_XDECREF(bytes);
    return shown;
}

/* What is wrong, where, and in which bytes, of which the first are shown. */
static PyObject *message_of(jadvolni_result answer, const char *text, size_t len,
                            const field_place *field)
{
    const char *fault = jadvolni_status_text(answer.status);
    PyObject *shown = shown_bytes(text, len), *message = NULL;
    if (shown && field)
        message = PyUnicode_FromFormat("%s at byte %zu, in field %zu: %S", fault, answer.place,
                                       field->index + 1, shown);
    else if (shown)
        message = PyUnicode_FromFormat("%s at byte %zu: %S", fault, answer.place, shown);
    Py_XDECREF(shown);
    return message;
}

void raise_bounds(const core_state *state, PyObject *message, PyObject *least, PyObject *most)
{
    PyObject *error = error_of(state->parse_error, message, "OutOfBounds");
    if (error && set_attribute(error, "place", PyLong_FromLong(0)) == 0
        && set_attribute(error, "min", Py_NewRef(least)) == 0
        && set_attribute(error, "max", Py_NewRef(most)) == 0)
        PyErr_SetObject(state->parse_error, error);
    Py_XDECREF(error);
}

void raise_fault(const core_state *state, jadvolni_result answer, const char *text, size_t len,
                 const field_place *field)
{
    if (is_of_format(answer.status)) {
        raise_format(state, answer.status);
        return;
    }
    PyObject *message = message_of(answer, text, len, field);
    PyObject *error = error_of(state->parse_error, message, jadvolni_status_name(answer.status));
    if (error && set_attribute(error, "place", PyLong_FromSize_t(answer.place)) == 0
        && (!field || (set_attribute(error, "field", PyLong_FromSize_t(field->index)) == 0
                       && set_attribute(error, "start", PyLong_FromSize_t(field->start)) == 0)))
        PyErr_SetObject(state->parse_error, error);
    Py_XDECREF(error);
}
