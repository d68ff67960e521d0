/*
 * arrow.c - tables and columns by Arrow's C data interface, in the capsules of its PyCapsule protocol. What
 * is handed out borrows the arrays, whose numbers and bits are laid out as Arrow's: nothing is copied.
 */
#include "core.h"

#include <errno.h>
#include <stdlib.h>

/* The structs of the interface, as its specification has them. */
typedef struct arrow_schema {
    const char *format;
    const char *name;
    const char *metadata;
    int64_t flags;
    int64_t n_children;
    struct arrow_schema **children;
    struct arrow_schema *dictionary;
    void (*release)(struct arrow_schema *);
    void *private_data;
} arrow_schema;

typedef struct arrow_array {
    int64_t length;
    int64_t null_count;
    int64_t offset;
    int64_t n_buffers;
    int64_t n_children;
    const void **buffers;
    struct arrow_array **children;
    struct arrow_array *dictionary;
    void (*release)(struct arrow_array *);
    void *private_data;
} arrow_array;

typedef struct arrow_stream {
    int (*get_schema)(struct arrow_stream *, arrow_schema *);
    int (*get_next)(struct arrow_stream *, arrow_array *);
    const char *(*get_last_error)(struct arrow_stream *);
    void (*release)(struct arrow_stream *);
    void *private_data;
} arrow_stream;

enum { IS_NULLABLE = 2 };
static const char SCHEMA[] = "arrow_schema", ARRAY[] = "arrow_array", STREAM[] = "arrow_array_stream";

/* ---- schemas */

static void release_schema(arrow_schema *schema)
{
    for (int64_t k = 0; k < schema->n_children; k++) {
        if (schema->children[k]->release)
            schema->children[k]->release(schema->children[k]);
        free(schema->children[k]);
    }
    free(schema->children);
    free(schema->private_data);
    schema->release = NULL;
}

/* Arrow's name for the numbers of an array by its code, or for texts. */
static const char *format_of_code(const char *code)
{
    static const char *const names[][2] = {{"q", "l"}, {"Q", "L"}, {"i", "i"}, {"I", "I"}, {"h", "s"},
                                           {"H", "S"}, {"b", "c"}, {"B", "C"}, {"U", "U"}, {"Z", "Z"}};
    for (size_t k = 0; k < sizeof names / sizeof *names; k++)
        if (strcmp(code, names[k][0]) == 0)
            return names[k][1];
    PyErr_Format(PyExc_ValueError, "Arrow has no numbers of the code %s", code);
    return NULL;
}

/* A column as a tuple has it: its name, the code of its numbers, these, their bits or None, and the bytes of
 * texts or None. */
typedef struct column {
    const char *name;
    const char *format;
    PyObject *numbers;
    PyObject *bits;
    PyObject *bytes;
} column;

static int column_at(PyObject *columns, Py_ssize_t index, column *found)
{
    const char *code;
    PyObject *given = PyTuple_GetItem(columns, index);
    if (!given || !PyArg_ParseTuple(given, "ssOOO", &found->name, &code, &found->numbers, &found->bits,
                                    &found->bytes))
        return -1;
    found->format = format_of_code(code);
    return found->format ? 0 : -1;
}

/* Makes a schema without children. */
static int make_schema(arrow_schema *schema, const char *format, const char *name, int64_t flags)
{
    char *own = malloc(strlen(name) + 1);
    if (!own) {
        PyErr_NoMemory();
        return -1;
    }
    *schema = (arrow_schema){.format = format, .name = strcpy(own, name), .flags = flags,
                             .release = release_schema, .private_data = own};
    return 0;
}

/* Makes the schema of a column. */
static int make_column_schema(arrow_schema *schema, PyObject *columns, Py_ssize_t index)
{
    column it;
    if (column_at(columns, index, &it) < 0)
        return -1;
    return make_schema(schema, it.format, it.name, it.bits == Py_None ? 0 : IS_NULLABLE);
}

/* Makes the schema of a table, or of its one column. -1 with an exception. */
static int fill_schema(arrow_schema *schema, PyObject *columns, int is_table)
{
    Py_ssize_t count = PyTuple_Size(columns);
    if (!is_table)
        return make_column_schema(schema, columns, 0);
    if (make_schema(schema, "+s", "", 0) < 0)
        return -1;
    schema->children = calloc((size_t)count + 1, sizeof *schema->children);
    int made = schema->children ? 0 : -1;
    for (Py_ssize_t k = 0; made == 0 && k < count; k++) {
        schema->children[k] = calloc(1, sizeof **schema->children);
        made = schema->children[k] ? 0 : -1;
        schema->n_children += made == 0;
        if (made == 0)
            made = make_column_schema(schema->children[k], columns, k);
    }
    if (made < 0) {
        if (!PyErr_Occurred())
            PyErr_NoMemory();
        schema->release(schema);
    }
    return made;
}

/* ---- arrays */

/* What the array of a column borrows: its bits, its numbers, and the bytes of texts. */
typedef struct loan {
    const void *buffers[3];
    Py_buffer views[3];
} loan;

/* Gives back what was borrowed. Any thread may come here, and none once Python has ended. */
static void give_back_loan(loan *lent)
{
    if (!Py_IsInitialized())
        return;
    PyGILState_STATE state = PyGILState_Ensure();
    PyBuffer_Release(&lent->views[0]);
    PyBuffer_Release(&lent->views[1]);
    PyBuffer_Release(&lent->views[2]);
    PyGILState_Release(state);
    free(lent);
}

static void release_array(arrow_array *array)
{
    for (int64_t k = 0; k < array->n_children; k++) {
        if (array->children[k]->release)
            array->children[k]->release(array->children[k]);
        free(array->children[k]);
    }
    if (array->children)
        free(array->private_data);
    else
        give_back_loan(array->private_data);
    free(array->children);
    array->release = NULL;
}

/* Borrows an array with room for the bytes. -1 with an exception. */
static int lend(PyObject *values, Py_ssize_t size, const char *name, Py_buffer *view)
{
    if (PyObject_GetBuffer(values, view, PyBUF_ND) < 0)
        return -1;
    if (view->len >= size)
        return 0;
    PyErr_Format(PyExc_ValueError, "the column '%s' has too few rows", name);
    return -1;
}

/* How many bytes each number of a column has. */
static Py_ssize_t size_of_numbers(const char *format)
{
    static const char one[] = "cC", two[] = "sS", four[] = "iI";
    return strchr(one, *format) ? 1 : strchr(two, *format) ? 2 : strchr(four, *format) ? 4 : 8;
}

/* Borrows the arrays of a column with these rows. Texts have a place more, at which the last one stops. -1
 * with an exception. */
static int lend_column(const column *it, Py_ssize_t rows, loan *lent)
{
    int has_bits = it->bits != Py_None, has_texts = it->bytes != Py_None;
    if (lend(it->numbers, (rows + has_texts) * size_of_numbers(it->format), it->name, &lent->views[1]) < 0
        || (has_bits && lend(it->bits, (rows + 7) / 8, it->name, &lent->views[0]) < 0))
        return -1;
    if (!has_texts)
        return 0;
    const int64_t *places = lent->views[1].buf;
    return lend(it->bytes, (Py_ssize_t)places[rows], it->name, &lent->views[2]);
}

/* Makes the array of a column with these rows. -1 with an exception. */
static int make_column(arrow_array *array, PyObject *columns, Py_ssize_t index, Py_ssize_t rows)
{
    column it;
    loan *lent = calloc(1, sizeof *lent);
    if (!lent)
        PyErr_NoMemory();
    if (!lent || column_at(columns, index, &it) < 0) {
        free(lent);
        return -1;
    }
    if (lend_column(&it, rows, lent) < 0) {
        give_back_loan(lent);
        return -1;
    }
    for (int k = 0; k < 3; k++)
        lent->buffers[k] = lent->views[k].buf;
    *array = (arrow_array){.length = rows, .null_count = it.bits != Py_None ? -1 : 0,
                           .n_buffers = it.bytes != Py_None ? 3 : 2, .buffers = lent->buffers,
                           .release = release_array, .private_data = lent};
    return 0;
}

/* Makes the array of a table, or of its one column. -1 with an exception. */
static int fill_array(arrow_array *array, PyObject *columns, int is_table, Py_ssize_t rows)
{
    Py_ssize_t count = PyTuple_Size(columns);
    if (!is_table)
        return make_column(array, columns, 0, rows);
    *array = (arrow_array){.length = rows, .n_buffers = 1, .release = release_array};
    array->children = calloc((size_t)count + 1, sizeof *array->children);
    array->private_data = calloc(1, sizeof *array->buffers);
    array->buffers = array->private_data;
    int made = array->children && array->buffers ? 0 : -1;
    for (Py_ssize_t k = 0; made == 0 && k < count; k++) {
        array->children[k] = calloc(1, sizeof **array->children);
        made = array->children[k] ? 0 : -1;
        array->n_children += made == 0;
        if (made == 0)
            made = make_column(array->children[k], columns, k, rows);
    }
    if (made < 0) {
        if (!PyErr_Occurred())
            PyErr_NoMemory();
        if (array->children)
            release_array(array);
        else
            free(array->private_data);
    }
    return made;
}

/* ---- streams */

/* The table of a stream, which is handed out once, as one array. */
typedef struct source {
    PyObject *columns;
    Py_ssize_t rows;
    int is_done;
} source;

/* What a call of a stream answers to its caller, who knows nothing of exceptions. */
static int answered(int made)
{
    PyErr_Clear();
    return made < 0 ? ENOMEM : 0;
}

static int stream_schema(arrow_stream *stream, arrow_schema *schema)
{
    source *from = stream->private_data;
    PyGILState_STATE state = PyGILState_Ensure();
    int answer = answered(fill_schema(schema, from->columns, 1));
    PyGILState_Release(state);
    return answer;
}

static int stream_next(arrow_stream *stream, arrow_array *array)
{
    source *from = stream->private_data;
    if (from->is_done) {
        *array = (arrow_array){.release = NULL};
        return 0;
    }
    PyGILState_STATE state = PyGILState_Ensure();
    int answer = answered(fill_array(array, from->columns, 1, from->rows));
    PyGILState_Release(state);
    from->is_done = answer == 0;
    return answer;
}

static const char *stream_error(arrow_stream *stream)
{
    (void)stream;
    return "there is too little memory, or a column was changed";
}

static void release_stream(arrow_stream *stream)
{
    source *from = stream->private_data;
    if (Py_IsInitialized()) {
        PyGILState_STATE state = PyGILState_Ensure();
        Py_DECREF(from->columns);
        PyGILState_Release(state);
    }
    free(from);
    stream->release = NULL;
}

/* ---- capsules: what nobody took over is released with them */

#define DESTRUCTOR(type, name)                                                                   \
    static void end_##type(PyObject *capsule)                                                    \
    {                                                                                            \
        arrow_##type *it = PyCapsule_GetPointer(capsule, name);                                  \
        if (it && it->release)                                                                   \
            it->release(it);                                                                     \
        free(it);                                                                                \
    }
DESTRUCTOR(schema, SCHEMA)
DESTRUCTOR(array, ARRAY)
DESTRUCTOR(stream, STREAM)

/* A struct that was made, in a capsule; what wasn't is freed. */
static PyObject *capsule_of(void *it, int made, const char *name, PyCapsule_Destructor end)
{
    if (made < 0) {
        free(it);
        return it ? NULL : PyErr_NoMemory();
    }
    return PyCapsule_New(it, name, end);
}

/* Asks that this is the first interpreter: others can't be found from any thread. */
static int ask_first(void)
{
    if (PyInterpreterState_GetID(PyInterpreterState_Get()) == 0)
        return 0;
    PyErr_SetString(PyExc_RuntimeError, "Arrow's interface needs the first interpreter of a process");
    return -1;
}

PyObject *arrow_schema_of(PyObject *module, PyObject *args)
{
    (void)module;
    PyObject *columns;
    int is_table;
    if (!PyArg_ParseTuple(args, "O!p", &PyTuple_Type, &columns, &is_table))
        return NULL;
    arrow_schema *it = calloc(1, sizeof *it);
    return capsule_of(it, it ? fill_schema(it, columns, is_table) : -1, SCHEMA, end_schema);
}

PyObject *arrow_array_of(PyObject *module, PyObject *args)
{
    (void)module;
    PyObject *columns;
    int is_table;
    Py_ssize_t rows;
    if (!PyArg_ParseTuple(args, "O!pn", &PyTuple_Type, &columns, &is_table, &rows) || ask_first() < 0)
        return NULL;
    arrow_array *it = calloc(1, sizeof *it);
    return capsule_of(it, it ? fill_array(it, columns, is_table, rows) : -1, ARRAY, end_array);
}

PyObject *arrow_stream_of(PyObject *module, PyObject *args)
{
    (void)module;
    PyObject *columns;
    Py_ssize_t rows;
    if (!PyArg_ParseTuple(args, "O!n", &PyTuple_Type, &columns, &rows) || ask_first() < 0)
        return NULL;
    arrow_stream *it = calloc(1, sizeof *it);
    source *from = calloc(1, sizeof *from);
    if (!it || !from) {
        free(from);
        return capsule_of(it, -1, STREAM, end_stream);
    }
    *from = (source){Py_NewRef(columns), rows, 0};
    *it = (arrow_stream){stream_schema, stream_next, stream_error, release_stream, from};
    return capsule_of(it, 0, STREAM, end_stream);
}
