/*
 * bounds.c - the bounds that a caller sets for a number, and the fault of one that leaves them.
 */
#include <stdio.h>

#include "core.h"

/* A bound as an int, or None where there is none. NULL with an exception. */
static PyObject *bound_of(const char *name, PyObject *given)
{
    if (!given || given == Py_None)
        return Py_NewRef(Py_None);
    PyObject *bound = PyNumber_Index(given);
    if (!bound && PyErr_ExceptionMatches(PyExc_TypeError)) {
        PyErr_Clear();
        raise_type(name, "an integer or None", given, "");
    }
    return bound;
}

/* Raises ValueError if no number is within two bounds. Nonzero with an exception, of whichever type. */
static int ask_order(PyObject *least, PyObject *most)
{
    int crossed = PyObject_RichCompareBool(most, least, Py_LT);
    PyObject *from = crossed > 0 ? PyObject_Str(least) : NULL; /* (or it has too many digits for Python) */
    PyObject *to = from ? PyObject_Str(most) : NULL;
    if (to)
        PyErr_Format(PyExc_ValueError, "min has to be at most max, and %U is more than %U", from, to);
    Py_XDECREF(to);
    Py_XDECREF(from);
    return crossed;
}

int bounds_of(PyObject *least, PyObject *most, bounds *asked)
{
    *asked = (bounds){bound_of("min", least), NULL};
    asked->most = asked->least ? bound_of("max", most) : NULL;
    if (!asked->most)
        return -1;
    if (asked->least == Py_None || asked->most == Py_None)
        return 0;
    return ask_order(asked->least, asked->most) ? -1 : 0;
}

void let_go_bounds(bounds *asked)
{
    Py_XDECREF(asked->least);
    Py_XDECREF(asked->most);
}

/* Whether a number is within bounds. -1 with an exception. */
static int is_within(PyObject *value, const bounds *asked)
{
    int below = asked->least == Py_None ? 0 : PyObject_RichCompareBool(value, asked->least, Py_LT);
    int above = asked->most == Py_None ? 0 : PyObject_RichCompareBool(value, asked->most, Py_GT);
    return below < 0 || above < 0 ? -1 : !below && !above;
}

/* ---- the fault of a text whose number is out of bounds ---- */

/* A byte is shown by up to four characters, and behind them stands a NUL. */
enum { SHOWN_BYTE = 5 };

/* The least or the greatest number of a type, of which all bits but the highest are alike. */
static PyObject *end_of(const number_type *type, int is_greatest)
{
    number end;
    size_t size = type->size ? type->size : sizeof end.u128;
    memset(&end, is_greatest ? 0xFF : 0, sizeof end);
    if (*type->name == 'i')
        ((unsigned char *)&end)[size - 1] ^= 0x80;
    return type->number(&end);
}

/* A bound that was asked for; the end of the type where there is none, or where it is beyond that. */
static PyObject *bound_within(const number_type *type, PyObject *asked, int is_greatest)
{
    PyObject *end = end_of(type, is_greatest);
    if (!end || asked == Py_None)
        return end;
    int is_narrower = PyObject_RichCompareBool(asked, end, is_greatest ? Py_LT : Py_GT);
    if (is_narrower == 0)
        return end;
    Py_DECREF(end);
    return is_narrower > 0 ? Py_NewRef(asked) : NULL;
}

/* Puts a byte, or its number where it isn't printable ASCII, as a string: how many characters that are. */
static int put_shown(char *to, unsigned char byte)
{
    int is_printable = byte >= ' ' && byte < 0x7F;
    return snprintf(to, SHOWN_BYTE, is_printable ? "%c" : "\\x%02x", byte);
}

/* A bound as texts have it: that of amounts has a point. */
static PyObject *shown_bound(PyObject *bound, const notation *written)
{
    Py_ssize_t places = written->is_fixed ? written->fixed.places : 0;
    PyObject *digits = PyObject_Str(bound);
    if (!digits || places == 0)
        return digits;
    int is_negative = PyUnicode_ReadChar(digits, 0) == '-';
    PyObject *padded = PyObject_CallMethod(digits, "zfill", "n", places + 1 + is_negative);
    Py_DECREF(digits);
    if (!padded)
        return NULL;
    Py_ssize_t size = PyUnicode_GetLength(padded);
    PyObject *whole = PyUnicode_Substring(padded, 0, size - places);
    PyObject *rest = whole ? PyUnicode_Substring(padded, size - places, size) : NULL;
    char point[SHOWN_BYTE];
    put_shown(point, written->fixed.point ? written->fixed.point : '.');
    PyObject *shown = rest ? PyUnicode_FromFormat("%U%s%U", whole, point, rest) : NULL;
    Py_XDECREF(rest);
    Py_XDECREF(whole);
    Py_DECREF(padded);
    return shown;
}

/* The front of a text, in which bytes that aren't printable ASCII are shown by their numbers. */
static PyObject *shown_front(const borrowed_text *text)
{
    enum { MOST = 40 }; /* at most this many bytes are shown */
    char shown[MOST * SHOWN_BYTE] = "";
    int size = 0;
    for (size_t k = 0; k < text->len && k < MOST; k++)
        size += put_shown(shown + size, (unsigned char)text->bytes[k]);
    return PyUnicode_FromFormat("%s%s", shown, text->len > MOST ? ".." : "");
}

/* What is said of a text, and of the bounds that its number leaves. */
static PyObject *message_of(const borrowed_text *text, const notation *written, PyObject *least,
                            PyObject *most)
{
    PyObject *from = shown_bound(least, written), *message = NULL;
    PyObject *to = from ? shown_bound(most, written) : NULL;
    PyObject *given = to ? shown_front(text) : NULL;
    if (given)
        message = PyUnicode_FromFormat("%U is not from %U to %U", given, from, to);
    Py_XDECREF(given);
    Py_XDECREF(to);
    Py_XDECREF(from);
    return message;
}

static void raise_out_of_bounds(const core_state *state, const borrowed_text *text,
                                const notation *written, const bounds *asked)
{
    PyObject *least = bound_within(written->type, asked->least, 0), *message = NULL;
    PyObject *most = least ? bound_within(written->type, asked->most, 1) : NULL;
    if (most && ask_order(least, most) == 0) /* (a bound that the type lacks may leave no number) */
        message = message_of(text, written, least, most);
    if (message)
        raise_bounds(state, message, least, most);
    Py_XDECREF(most);
    Py_XDECREF(least);
}

/* ---- numbers ---- */

static int is_beyond(uint32_t status)
{
    return status == JADVOLNI_OVERFLOW || status == JADVOLNI_UNDERFLOW;
}

/* What else is wrong with a text than that its type, which answers so, lacks its number; JADVOLNI_OK where
 * that is all. The widest type with a sign decides, in which "-5" and "70000" are numbers. */
static jadvolni_result fault_beside_bounds(const borrowed_text *text, const notation *written,
                                           jadvolni_result answer)
{
    static const jadvolni_result none = {JADVOLNI_OK, 0};
    number wide;
    jadvolni_result other = whole_number(text, widest_type, written, &wide);
    if (other.status == JADVOLNI_OK)
        return is_beyond(answer.status) || wide.i128.high < 0 ? none : answer;
    if (is_beyond(other.status))
        return none;
    return is_beyond(answer.status) ? other : answer;
}

PyObject *number_within(const core_state *state, const borrowed_text *text, const notation *written,
                        const bounds *asked)
{
    number value;
    PyObject *result = NULL;
    int is_taken = 0;
    jadvolni_result answer = whole_number(text, written->type, written, &value);
    if (answer.status == JADVOLNI_OK) {
        result = written->type->number(&value);
        is_taken = result ? is_within(result, asked) : -1;
    } else {
        answer = fault_beside_bounds(text, written, answer);
    }
    if (is_taken > 0)
        return result;
    Py_XDECREF(result);
    if (answer.status != JADVOLNI_OK)
        raise_fault(state, answer, text->bytes, text->len, NULL);
    else if (is_taken == 0)
        raise_out_of_bounds(state, text, written, asked);
    return NULL;
}
