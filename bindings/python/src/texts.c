/*
 * texts.c - the texts of a column's cells: the library says where they stand, and here their bytes are put
 * behind each other, and made a list.
 */
#include "core.h"

/* How many bytes a text has, where each two of its doubled quotes are one. */
static size_t size_of(const char *text, const jadvolni_cell_text *cell)
{
    if (!cell->has_doubled_quotes)
        return cell->size;
    return jadvolni_fold_quotes(text + cell->start, cell->size, NULL, 0);
}

/* Puts the bytes of a text to where there is room for them. */
static void put_text(const char *text, const jadvolni_cell_text *cell, char *to, size_t size)
{
    if (cell->has_doubled_quotes)
        jadvolni_fold_quotes(text + cell->start, cell->size, to, size);
    else
        memcpy(to, text + cell->start, size);
}

int put_texts(PyObject *bytes, const char *text, const jadvolni_cell_text *cells, size_t count,
              int64_t *sizes)
{
    Py_ssize_t before = PyByteArray_Size(bytes);
    size_t more = 0;
    Py_BEGIN_ALLOW_THREADS
    for (size_t k = 0; k < count; k++) {
        size_t size = size_of(text, &cells[k]);
        sizes[k] = (int64_t)size;
        more += size;
    }
    Py_END_ALLOW_THREADS
    if (more == 0)
        return 0;
    if (PyByteArray_Resize(bytes, before + (Py_ssize_t)more) < 0)
        return -1;
    char *to = PyByteArray_AsString(bytes) + before;
    Py_BEGIN_ALLOW_THREADS
    for (size_t k = 0; k < count; to += sizes[k], k++)
        put_text(text, &cells[k], to, (size_t)sizes[k]);
    Py_END_ALLOW_THREADS
    return 0;
}

/* ---- as a list ---- */

/* The texts of a column: their bytes, where each starts and the last one stops, and bits or NULL. */
typedef struct text_array {
    Py_buffer data;
    Py_buffer offsets;
    Py_buffer bits;
    Py_ssize_t count;
    int is_utf8;
} text_array;

/* A text, None where it is missing. NULL with an exception, or without one where its place isn't in the
 * bytes. */
static PyObject *text_at(const text_array *all, Py_ssize_t row)
{
    const uint8_t *bits = all->bits.buf;
    int64_t places[2];
    if (bits && !(bits[row / 8] >> (row % 8) & 1))
        return Py_NewRef(Py_None);
    memcpy(places, (const char *)all->offsets.buf + (size_t)row * sizeof *places, sizeof places);
    if (places[0] < 0 || places[1] < places[0] || places[1] > all->data.len)
        return NULL;
    const char *text = (const char *)all->data.buf + places[0];
    Py_ssize_t size = (Py_ssize_t)(places[1] - places[0]);
    return all->is_utf8 ? PyUnicode_DecodeUTF8(text, size, NULL)
                        : PyBytes_FromStringAndSize(text, size);
}

static PyObject *texts_as_list(const text_array *all)
{
    PyObject *list = PyList_New(all->count);
    for (Py_ssize_t row = 0; list && row < all->count; row++) {
        PyObject *text = text_at(all, row);
        if (!text || PyList_SetItem(list, row, text) < 0)
            Py_CLEAR(list);
    }
    return list || PyErr_Occurred() ? list : Py_NewRef(Py_None);
}

PyObject *text_list(PyObject *module, PyObject *args)
{
    (void)module;
    PyObject *bits, *list = NULL;
    text_array all = {.count = 0};
    if (!PyArg_ParseTuple(args, "y*y*Onp", &all.data, &all.offsets, &bits, &all.count, &all.is_utf8))
        return NULL;
    if (bits == Py_None || PyObject_GetBuffer(bits, &all.bits, PyBUF_SIMPLE) == 0) {
        size_t count = (size_t)all.count;
        int fits = all.count >= 0 && (size_t)all.offsets.len == (count + 1) * sizeof(int64_t)
                   && (bits == Py_None || (size_t)all.bits.len >= (count + 7) / 8);
        list = fits ? texts_as_list(&all) : Py_NewRef(Py_None);
    }
    PyBuffer_Release(&all.data);
    PyBuffer_Release(&all.offsets);
    PyBuffer_Release(&all.bits);
    return list;
}
