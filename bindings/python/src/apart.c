/*
 * apart.c - whether the arrays that a table is read into have memory of their own.
 */
#include "core.h"

#include <stdlib.h>

/* Where the bytes of an array are. */
typedef struct span {
    uintptr_t start;
    uintptr_t stop;
} span;

static int by_start(const void *one, const void *other)
{
    uintptr_t first = ((const span *)one)->start, second = ((const span *)other)->start;
    return (first > second) - (first < second);
}

/* Puts the arrays that have bytes to spans, in the order of memory, and answers how many. */
static size_t spans_of(const Py_buffer *rooms, Py_ssize_t count, span *spans)
{
    size_t found = 0;
    for (const Py_buffer *it = rooms; it < rooms + count; it++)
        if (it->len)
            spans[found++] = (span){(uintptr_t)it->buf, (uintptr_t)it->buf + (size_t)it->len};
    qsort(spans, found, sizeof *spans, by_start);
    return found;
}

/* Whether arrays share no byte with each other, or with two texts. */
static int are_apart(const span *spans, size_t count, const borrowed_text *text,
                     const borrowed_text *missing)
{
    uintptr_t first = (uintptr_t)text->bytes, second = (uintptr_t)missing->bytes;
    int apart = 1;
    for (size_t k = 0; k < count; k++) {
        apart &= k == 0 || spans[k - 1].stop <= spans[k].start;
        apart &= !text->len || spans[k].stop <= first || first + text->len <= spans[k].start;
        apart &= !missing->len || spans[k].stop <= second || second + missing->len <= spans[k].start;
    }
    return apart;
}

int ask_apart(const Py_buffer *rooms, Py_ssize_t count, const borrowed_text *text,
              const borrowed_text *missing)
{
    span *spans = PyMem_Calloc((size_t)count + 1, sizeof *spans);
    if (!spans) {
        PyErr_NoMemory();
        return -1;
    }
    int apart = are_apart(spans, spans_of(rooms, count, spans), text, missing);
    PyMem_Free(spans);
    if (!apart)
        PyErr_SetString(PyExc_ValueError, "out has to have memory of its own for each array");
    return apart ? 0 : -1;
}
