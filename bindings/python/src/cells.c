/*
 * cells.c - the cells of a row, and what is reported of bad rows: where they are, and the first bytes of their
 * wrong cells.
 */
#include "core.h"

/* At most this many bytes of a cell are shown; one more says that it goes on. */
enum { MOST_SHOWN = 40 };

/* The bytes of a text from one place to another. */
typedef struct stretch {
    size_t start;
    size_t stop;
} stretch;

/* Where the wrong cell of a row is; where none is wrong, but one or the return missing, it has no byte. */
static stretch cell_of(const char *text, const jadvolni_bad_row *bad, const jadvolni_table *table)
{
    jadvolni_cell_place cell;
    if (bad->status == JADVOLNI_TOO_FEW_CELLS || bad->status == JADVOLNI_MISSING_RETURN
        || jadvolni_row_cells(text + bad->start, bad->stop - bad->start, table, bad->column, &cell, 1)
               .count <= bad->column)
        return (stretch){bad->place, bad->place};
    size_t start = bad->start + cell.start;
    return (stretch){start, start + (cell.size < MOST_SHOWN + 1 ? cell.size : MOST_SHOWN + 1)};
}

/* How many bytes a line has up to behind its line feed, and 0 where none ends it, as of a record. */
static size_t line_end(const char *text, const jadvolni_bad_row *bad, const jadvolni_table *table)
{
    size_t len = bad->stop - bad->start;
    return table->is_records ? 0 : row_end(text + bad->start, len, 0, table->has_quotes);
}

/* How many bytes a row has before its end. A record that is a line end alone has none. */
static size_t row_size(const char *text, const jadvolni_bad_row *bad, const jadvolni_table *table, size_t end)
{
    const char *row = text + bad->start;
    size_t size = end ? end - 1 : bad->stop - bad->start;
    if (table->is_records)
        return (size == 1 && row[0] == '\n') || (size == 2 && memcmp(row, "\r\n", 2) == 0) ? 0 : size;
    int takes_return = end && (table->has_returns || table->allows_returns);
    return takes_return && size && row[size - 1] == '\r' ? size - 1 : size;
}

/* A bad row around its place, also where another thread has changed the text against the rules. */
static jadvolni_bad_row around_place(jadvolni_bad_row bad, size_t len)
{
    bad.place = bad.place < len ? bad.place : len;
    bad.start = bad.start < bad.place ? bad.start : bad.place;
    bad.stop = bad.stop < len ? bad.stop : len;
    bad.stop = bad.stop > bad.place ? bad.stop : bad.place;
    return bad;
}

/* What is known of a bad row. It stops before the empty ones that are skipped: with a block they may not have
 * come. */
static PyObject *fault_of(jadvolni_bad_row bad, const borrowed_text *part, size_t before,
                          const jadvolni_table *table)
{
    bad = around_place(bad, part->len);
    stretch cell = cell_of(part->bytes, &bad, table);
    size_t end = line_end(part->bytes, &bad, table);
    return Py_BuildValue("(ssnnnnnny#n)", jadvolni_status_name(bad.status),
                         jadvolni_status_text(bad.status), (Py_ssize_t)bad.row,
                         (Py_ssize_t)bad.column, (Py_ssize_t)(before + bad.place),
                         (Py_ssize_t)(before + bad.start),
                         (Py_ssize_t)(before + (end ? bad.start + end : bad.stop)),
                         (Py_ssize_t)(before + cell.start), part->bytes + cell.start,
                         (Py_ssize_t)(cell.stop - cell.start),
                         (Py_ssize_t)row_size(part->bytes, &bad, table, end));
}

PyObject *faults_of(const jadvolni_bad_row *bad, size_t count, const borrowed_text *part, size_t before,
                    const jadvolni_table *table)
{
    PyObject *faults = PyTuple_New((Py_ssize_t)count);
    for (size_t k = 0; faults && k < count; k++) {
        PyObject *one = fault_of(bad[k], part, before, table);
        if (!one || PyTuple_SetItem(faults, (Py_ssize_t)k, one) < 0)
            Py_CLEAR(faults);
    }
    return faults;
}

/* The bytes of cells of a row. */
static PyObject *bytes_of(const char *row, const jadvolni_cell_place *cells, size_t count)
{
    PyObject *list = PyList_New((Py_ssize_t)count);
    for (size_t k = 0; list && k < count; k++) {
        PyObject *one = PyBytes_FromStringAndSize(row + cells[k].start, (Py_ssize_t)cells[k].size);
        if (!one || PyList_SetItem(list, (Py_ssize_t)k, one) < 0)
            Py_CLEAR(list);
    }
    return list;
}

PyObject *row_cells(PyObject *module, PyObject *args)
{
    (void)module;
    jadvolni_table table = {0};
    const char *row;
    Py_ssize_t len;
    PyObject *separator;
    int has_quotes;
    if (!PyArg_ParseTuple(args, "y#Op", &row, &len, &separator, &has_quotes))
        return NULL;
    int byte = separator_of(separator);
    if (byte < 0)
        return NULL;
    table.separator = (uint8_t)byte;
    table.has_quotes = (uint8_t)has_quotes;
    size_t count = jadvolni_row_cells(row, (size_t)len, &table, 0, NULL, 0).count;
    jadvolni_cell_place *cells = PyMem_New(jadvolni_cell_place, count);
    if (!cells)
        return PyErr_NoMemory();
    count = jadvolni_row_cells(row, (size_t)len, &table, 0, cells, count).count;
    PyObject *list = bytes_of(row, cells, count);
    PyMem_Free(cells);
    return list;
}
