/*
 * arguments.c - what the calls are given: by place or by name, and of which kind.
 */
#include "core.h"

static const jadvolni_format STANDARD = JADVOLNI_FORMAT_STANDARD;

/* The slot of an argument's name, and `most` for a name that is none. */
static Py_ssize_t slot_of(PyObject *keyword, const char *const *names, Py_ssize_t most)
{
    Py_ssize_t slot = 0;
    while (slot < most && PyUnicode_CompareWithASCIIString(keyword, names[slot]))
        slot++;
    return slot;
}

/* Puts the arguments that were given by name to their slots. */
static int named_arguments(const char *call, PyObject *const *args, PyObject *keywords,
                           const char *const *names, Py_ssize_t most, PyObject **found)
{
    Py_ssize_t count = keywords ? PyTuple_Size(keywords) : 0;
    for (Py_ssize_t k = 0; k < count; k++) {
        PyObject *keyword = PyTuple_GetItem(keywords, k);
        Py_ssize_t slot = slot_of(keyword, names, most);
        if (slot == most) {
            PyErr_Format(PyExc_TypeError, "%s() has no argument %R", call, keyword);
            return -1;
        }
        if (found[slot]) {
            PyErr_Format(PyExc_TypeError, "%s() was given %R twice", call, keyword);
            return -1;
        }
        found[slot] = args[k];
    }
    return 0;
}

int arguments(const char *call, PyObject *const *args, Py_ssize_t count, PyObject *keywords,
              const char *const *names, Py_ssize_t by_place, Py_ssize_t most, PyObject **found)
{
    if (count > by_place) {
        PyErr_Format(PyExc_TypeError, "%s() takes at most %zd arguments%s, and was given %zd", call,
                     by_place, by_place < most ? " by place" : "", count);
        return -1;
    }
    for (Py_ssize_t k = 0; k < most; k++)
        found[k] = k < count ? args[k] : NULL;
    if (named_arguments(call, args + count, keywords, names, most, found) < 0)
        return -1;
    if (!found[0]) {
        PyErr_Format(PyExc_TypeError, "%s() needs the argument '%s'", call, names[0]);
        return -1;
    }
    return 0;
}

void raise_type(const char *name, const char *wanted, PyObject *given, const char *detail)
{
    PyObject *type = PyType_GetName(Py_TYPE(given));
    if (type)
        PyErr_Format(PyExc_TypeError, "%s has to be %s, and not %U%s", name, wanted, type, detail);
    Py_XDECREF(type);
}

int format_of(const core_state *state, PyObject *format, jadvolni_format *fields)
{
    char *bytes = NULL;
    Py_ssize_t size;
    if (!format || format == Py_None) {
        *fields = STANDARD;
        return 0;
    }
    PyObject *own = PyObject_GetAttr(format, state->fields_name);
    if (!own && !PyErr_ExceptionMatches(PyExc_AttributeError))
        return -1;
    int whole = own && PyBytes_AsStringAndSize(own, &bytes, &size) == 0 && size == sizeof *fields;
    if (whole) {
        memcpy(fields, bytes, sizeof *fields);
    } else {
        PyErr_Clear();
        raise_type("format", "a jadvolni.Format or None", format, "");
    }
    Py_XDECREF(own);
    return whole ? 0 : -1;
}

int fixed_of(const core_state *state, PyObject *given, notation *written)
{
    char *bytes = NULL;
    Py_ssize_t size;
    if (!given || PyUnicode_Check(given) || PyType_Check(given))
        return 0;
    PyObject *own = PyObject_GetAttr(given, state->fixed_name), *type = NULL;
    if (!own) {
        if (!PyErr_ExceptionMatches(PyExc_AttributeError))
            return -1;
        PyErr_Clear();
        return 0;
    }
    if (PyBytes_AsStringAndSize(own, &bytes, &size) == 0 && size == sizeof written->fixed) {
        memcpy(&written->fixed, bytes, sizeof written->fixed);
        type = PyObject_GetAttrString(given, "type");
        written->type = type ? type_of(type) : NULL;
    } else {
        PyErr_Clear();
        raise_type("type", "a str such as 'u64' or a jadvolni.Fixed", given, "");
    }
    Py_XDECREF(type);
    Py_DECREF(own);
    return PyErr_Occurred() ? -1 : 1;
}

int notation_of(const core_state *state, PyObject *type, PyObject *format, notation *written)
{
    written->is_fixed = fixed_of(state, type, written);
    if (written->is_fixed > 0 && format && format != Py_None) {
        raise_type("format", "None where the type is a Fixed, which has one of its own", format, "");
        return -1;
    }
    if (written->is_fixed)
        return written->is_fixed < 0 ? -1 : 0;
    written->type = type_of(type);
    return written->type ? format_of(state, format, &written->format) : -1;
}

/* Why what a buffer has isn't a row of bytes, and NULL where it is. An array of texts, or of
 * numbers of several bytes, would be read as one text. */
static const char *no_bytes(const Py_buffer *view)
{
    const char *format = view->format ? view->format : "B";
    if (*format && strchr("@=<>!", *format))
        format++;
    if (view->itemsize != 1 || strlen(format) != 1 || !strchr("Bbc", *format))
        return ", whose items aren't bytes";
    if (view->ndim != 1)
        return ", which hasn't one dimension";
    return PyBuffer_IsContiguous(view, 'C') ? NULL : ", which isn't contiguous";
}

/* Lends an object with the buffer protocol. */
static int borrow_view(const char *name, PyObject *text, borrowed_text *borrowed)
{
    static const char wanted[] = "a str or contiguous bytes";
    if (!PyObject_CheckBuffer(text)) {
        raise_type(name, wanted, text, "");
        return -1;
    }
    if (PyObject_GetBuffer(text, &borrowed->view, PyBUF_FULL_RO) < 0)
        return -1;
    const char *detail = no_bytes(&borrowed->view);
    if (detail) {
        PyBuffer_Release(&borrowed->view);
        raise_type(name, wanted, text, detail);
        return -1;
    }
    borrowed->has_view = 1;
    borrowed->bytes = borrowed->view.buf;
    borrowed->len = (size_t)borrowed->view.len;
    return 0;
}

/* The bytes of a str that UTF-8 hasn't: those from which Python made it, as of an environment, or else
 * what its code points are by the same rule. So its fault is one of a text. */
static PyObject *encoded(PyObject *text)
{
    PyObject *bytes = PyUnicode_AsEncodedString(text, "utf-8", "surrogateescape");
    if (bytes || !PyErr_ExceptionMatches(PyExc_UnicodeEncodeError))
        return bytes;
    PyErr_Clear();
    return PyUnicode_AsEncodedString(text, "utf-8", "surrogatepass");
}

int borrow(const char *name, PyObject *text, borrowed_text *borrowed)
{
    Py_ssize_t size = 0;
    borrowed->has_view = 0;
    borrowed->encoded = NULL;
    if (PyUnicode_Check(text)) {
        borrowed->bytes = PyUnicode_AsUTF8AndSize(text, &size);
        if (!borrowed->bytes && PyErr_ExceptionMatches(PyExc_UnicodeEncodeError)) {
            PyErr_Clear();
            borrowed->encoded = encoded(text);
            borrowed->bytes = borrowed->encoded ? PyBytes_AsString(borrowed->encoded) : NULL;
            size = borrowed->encoded ? PyBytes_Size(borrowed->encoded) : 0;
        }
    } else if (PyBytes_Check(text)) {
        borrowed->bytes = PyBytes_AsString(text);
        size = PyBytes_Size(text);
    } else {
        return borrow_view(name, text, borrowed);
    }
    borrowed->len = (size_t)size;
    return borrowed->bytes ? 0 : -1;
}

void give_back(borrowed_text *borrowed)
{
    if (borrowed->has_view)
        PyBuffer_Release(&borrowed->view);
    Py_XDECREF(borrowed->encoded);
}

int separator_of(PyObject *separator)
{
    if (!separator)
        return '\n';
    borrowed_text text;
    if (borrow("separator", separator, &text) < 0)
        return -1;
    int byte = text.len == 1 ? (unsigned char)text.bytes[0] : -1;
    if (byte < 0)
        PyErr_Format(PyExc_ValueError, "separator has to be one byte, and not %zu", text.len);
    give_back(&text);
    return byte;
}
