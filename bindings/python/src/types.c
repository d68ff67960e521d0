/*
 * types.c - the types of numbers: their calls of the library, and what Python gets of them.
 */
#include "core.h"

#define PARSE_CALLS(name, type)                                                                  \
    static jadvolni_result whole_##name(const char *text, size_t len,                            \
                                        const jadvolni_format *format, void *value)              \
    {                                                                                            \
        return jadvolni_parse_##name##_with_format(text, len, format, (type *)value);            \
    }                                                                                            \
    static jadvolni_result front_##name(const char *text, size_t len,                            \
                                        const jadvolni_format *format, void *value)              \
    {                                                                                            \
        return jadvolni_parse_##name##_front_with_format(text, len, format, (type *)value);      \
    }                                                                                            \
    static jadvolni_result partial_##name(const char *text, size_t len,                          \
                                          const jadvolni_format *format, void *value)            \
    {                                                                                            \
        return jadvolni_parse_##name##_partial_with_format(text, len, format, (type *)value);    \
    }                                                                                            \
    static jadvolni_result fixed_##name(const char *text, size_t len,                            \
                                        const jadvolni_fixed *fixed, void *value)                \
    {                                                                                            \
        return jadvolni_parse_##name##_fixed(text, len, fixed, (type *)value);                   \
    }                                                                                            \
    static jadvolni_result fixed_front_##name(const char *text, size_t len,                      \
                                              const jadvolni_fixed *fixed, void *value)          \
    {                                                                                            \
        return jadvolni_parse_##name##_fixed_front(text, len, fixed, (type *)value);             \
    }

/* The call for columns of a type is that of the type of C, whose width and sign it has. */
#define COLUMN_CALL(name, call, type)                                                            \
    static jadvolni_result column_##name(const char *text, size_t len, uint8_t separator,        \
                                         const jadvolni_format *format, void *values,            \
                                         size_t capacity, size_t *count)                         \
    {                                                                                            \
        return jadvolni_parse_##call##_column(text, len, separator, format, (type *)values,      \
                                              capacity, count);                                  \
    }

#define UNSIGNED_TYPE(name, call, type, column_type)                                             \
    PARSE_CALLS(name, type)                                                                      \
    COLUMN_CALL(name, call, column_type)                                                         \
    static PyObject *number_##name(const number *value)                                          \
    {                                                                                            \
        return PyLong_FromUnsignedLongLong(value->name);                                         \
    }

#define SIGNED_TYPE(name, call, type, column_type)                                               \
    PARSE_CALLS(name, type)                                                                      \
    COLUMN_CALL(name, call, column_type)                                                         \
    static PyObject *number_##name(const number *value)                                          \
    {                                                                                            \
        return PyLong_FromLongLong(value->name);                                                 \
    }

UNSIGNED_TYPE(u8, u8, uint8_t, uint8_t)
UNSIGNED_TYPE(u16, u16, uint16_t, uint16_t)
UNSIGNED_TYPE(u32, u32, uint32_t, uint32_t)
UNSIGNED_TYPE(u64, u64, uint64_t, uint64_t)
UNSIGNED_TYPE(usize, u64, size_t, uint64_t)
SIGNED_TYPE(i8, i8, int8_t, int8_t)
SIGNED_TYPE(i16, i16, int16_t, int16_t)
SIGNED_TYPE(i32, i32, int32_t, int32_t)
SIGNED_TYPE(i64, i64, int64_t, int64_t)
SIGNED_TYPE(isize, i64, ptrdiff_t, int64_t)
PARSE_CALLS(u128, jadvolni_uint128)
PARSE_CALLS(i128, jadvolni_int128)

/* high * 2^64 + low; takes `high` over. */
static PyObject *joined(PyObject *high, uint64_t low)
{
    PyObject *width = high ? PyLong_FromLong(64) : NULL;
    PyObject *shifted = width ? PyNumber_Lshift(high, width) : NULL;
    PyObject *rest = shifted ? PyLong_FromUnsignedLongLong(low) : NULL;
    PyObject *result = rest ? PyNumber_Or(shifted, rest) : NULL;
    Py_XDECREF(high);
    Py_XDECREF(width);
    Py_XDECREF(shifted);
    Py_XDECREF(rest);
    return result;
}

PyObject *wide_number(const jadvolni_uint128 *halves)
{
    return joined(PyLong_FromUnsignedLongLong(halves->high), halves->low);
}

static PyObject *number_u128(const number *value)
{
    return wide_number(&value->u128);
}

static PyObject *number_i128(const number *value)
{
    return joined(PyLong_FromLongLong(value->i128.high), value->i128.low);
}

#define TYPE(name, call, NAME, numpy_name, code)                                                 \
    {#name, JADVOLNI_TYPE_##NAME, numpy_name, code, whole_##name, front_##name, partial_##name, fixed_##name,          \
     fixed_front_##name, column_##name, number_##name, sizeof(((number *)0)->call),              \
     offsetof(jadvolni_table_column, call)}
#define WIDE_TYPE(name, NAME)                                                                    \
    {#name, JADVOLNI_TYPE_##NAME, NULL, NULL, whole_##name, front_##name, partial_##name, fixed_##name,                \
     fixed_front_##name, NULL, number_##name, 0, 0}

const number_type types[TYPES] = {
    TYPE(i64, i64, I64, "int64", "q"),
    TYPE(u64, u64, U64, "uint64", "Q"),
    TYPE(i32, i32, I32, "int32", "i"),
    TYPE(u32, u32, U32, "uint32", "I"),
    TYPE(i16, i16, I16, "int16", "h"),
    TYPE(u16, u16, U16, "uint16", "H"),
    TYPE(i8, i8, I8, "int8", "b"),
    TYPE(u8, u8, U8, "uint8", "B"),
    TYPE(isize, i64, ISIZE, NULL, "q"),
    TYPE(usize, u64, USIZE, NULL, "Q"),
    WIDE_TYPE(i128, I128),
    WIDE_TYPE(u128, U128),
};

const number_type *const widest_type = &types[TYPES - 2];

/* The type of a name, and NULL where it is that of none. */
static const number_type *type_named(PyObject *name)
{
    Py_ssize_t size;
    const char *text = PyUnicode_AsUTF8AndSize(name, &size);
    if (!text)
        PyErr_Clear();
    if (!text || strlen(text) != (size_t)size)
        return NULL;
    for (const number_type *type = types; type < types + TYPES; type++)
        if (strcmp(text, type->name) == 0
            || (type->numpy_name && strcmp(text, type->numpy_name) == 0))
            return type;
    return NULL;
}

/* The name of a dtype of NumPy. Of one with another order of bytes it is its str, which is no type's. */
static PyObject *dtype_name(PyObject *type)
{
    PyObject *is_native = PyObject_GetAttrString(type, "isnative"), *name = NULL;
    if (is_native)
        name = is_native == Py_True ? PyObject_GetAttrString(type, "name") : PyObject_Str(type);
    Py_XDECREF(is_native);
    if (name && PyUnicode_Check(name))
        return name;
    if (name || PyErr_ExceptionMatches(PyExc_AttributeError)) {
        PyErr_Clear();
        raise_type("type", "a str such as 'u64'", type, "");
    }
    Py_XDECREF(name);
    return NULL;
}

/* What follows a message on the name of no integer type, if it names another kind of type. */
static const char *instead_of(PyObject *name)
{
    static const char *const texts[] = {"str", "string", "text", "Text", "object"};
    static const char *const amounts[] = {"float", "float32", "float64", "decimal", "Decimal", "Fixed"};
    for (size_t k = 0; k < sizeof texts / sizeof *texts; k++)
        if (PyUnicode_CompareWithASCIIString(name, texts[k]) == 0)
            return ": texts of a table have the type jadvolni.Text()";
    for (size_t k = 0; k < sizeof amounts / sizeof *amounts; k++)
        if (PyUnicode_CompareWithASCIIString(name, amounts[k]) == 0)
            return ": amounts have the type jadvolni.Fixed(places=2)";
    return "";
}

const number_type *type_of(PyObject *type)
{
    if (!type)
        return &types[0];
    PyObject *name = NULL;
    if (PyUnicode_Check(type))
        name = Py_NewRef(type);
    else if (PyType_Check(type))
        name = PyType_GetName((PyTypeObject *)type);
    else
        name = dtype_name(type);
    const number_type *found = name ? type_named(name) : NULL;
    if (name && !found)
        PyErr_Format(PyExc_ValueError,
                     "type has to be u8, u16, u32, u64, u128, usize, i8, i16, i32, i64, i128 or "
                     "isize, and not %R%s",
                     type, instead_of(name));
    Py_XDECREF(name);
    return found;
}
