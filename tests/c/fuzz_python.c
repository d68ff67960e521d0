/*
 * A target for libFuzzer: the extension for Python, whose calls are given any format, type and text.
 *
 * The first 19 bytes are a format, the next four the widths of a table, byte 32 is a separator, byte 33 a
 * type and a table's flags, and the rest is the text. A call answers, or raises one of its two exceptions;
 * the sanitizers see what it touches.
 */
#define PY_SSIZE_T_CLEAN
#include <Python.h>
#include <stdint.h>
#include <stdlib.h>

PyMODINIT_FUNC PyInit__core(void);

static const char DRIVER[] =
    "import _core, array, types\n"
    "MOST = 2 ** 63 - 1\n"
    "TYPES = ['u8', 'u16', 'u32', 'u64', 'usize', 'i8', 'i16', 'i32', 'i64', 'isize']\n"
    "def answer(call, text, *words):\n"
    "    try:\n"
    "        return call(text, *words)\n"
    "    except _core.FormatError:\n"
    "        return None\n"
    "    except _core.ParseError as wrong:\n"
    "        assert 0 <= wrong.place <= len(text), wrong.place\n"
    "def one(data):\n"
    "    if len(data) < 34:\n"
    "        return\n"
    "    format = types.SimpleNamespace(_fields=data[:19] + bytes(13))\n"
    "    kind, text = TYPES[data[33] % len(TYPES)], data[34:]\n"
    "    whole = answer(_core.parse, text, kind, format)\n"
    "    front = answer(_core.parse_front, text, kind, format)\n"
    "    assert front is None or 0 < front[1] <= len(text), front\n"
    "    if front and whole is not None:\n"
    "        assert front == (whole, len(text)), (front, whole)\n"
    "    answer(_core.parse_partial, text, kind, format)\n"
    "    for integer in (bytes(32), format._fields):\n"
    "        fixed = types.SimpleNamespace(type=kind, _fixed=integer + data[19:22] + bytes(13))\n"
    "        whole = answer(_core.parse, text, fixed)\n"
    "        front = answer(_core.parse_front, text, fixed)\n"
    "        assert whole is None or front == (whole, len(text)), (front, whole)\n"
    "    column = answer(_core.parse_column, text, kind, data[32:33], format)\n"
    "    assert column is None or len(column) <= len(text) + 1\n"
    "    rows, flags = len(text) + 1, [bool(data[33] & bit) for bit in (16, 32, 64, 128)]\n"
    "    numbers, at = array.array(_core._array_code(kind), [0]) * (rows + 7), data[33] % 8\n"
    "    written = (fixed, None) if data[19] & 8 else (kind, format)\n"
    "    texts = array.array('q', [0]) * (rows + 7), bytearray(rows + 7), None, None, bytearray()\n"
    "    columns = ((numbers, bytearray(rows + 7), *written, None),\n"
    "               texts if data[19] & 16 else None)[:1 + data[33] % 2]\n"
    "    sizes = data[20:20 + data[19] % 4]\n"
    "    widths = array.array('Q', [(0, 1, 2, 3, 5, 8, MOST)[size % 7] for size in sizes])\n"
    "    is_records = bool(data[19] & 4)\n"
    "    how = (data[32:33], *flags, text[:1], widths, is_records, bool(data[19] & 32))\n"
    "    for bad in (-1, 0, 1, rows):\n"
    "        asked = (0, len(text), True, how, columns, at, rows, bad)\n"
    "        before = len(texts[4])\n"
    "        read = answer(_core._parse_table, text, *asked)\n"
    "        if read is None:\n"
    "            continue\n"
    "        assert read[0] + read[2] < rows, read\n"
    "        sizes = texts[0][at:at + read[0]] if columns[-1] is texts else ()\n"
    "        assert sum(sizes) == len(texts[4]) - before and min(sizes, default=0) >= 0, read\n"
    "        assert read[1] == len(text) or len(read[3]) == abs(bad), read\n"
    "        for fault in read[3]:\n"
    "            place, start, stop, cell, shown, size = fault[4:]\n"
    "            assert 0 <= start <= place <= stop <= len(text), fault\n"
    "            assert start <= cell <= place and len(shown) <= 41, fault\n"
    "            assert text[cell:].startswith(shown), fault\n"
    "            end = text[start + size:stop]\n"
    "            assert len(end) <= 2 and not end.strip(), fault\n"
    "    line, behind = _core.line_column(text, at)\n"
    "    assert line == _core._lines(text, 0, at) and line + behind <= at\n"
    "    record = min(max(sum(widths), 1), MOST) if is_records else 0\n"
    "    assert _core._row_count(text, record) <= rows\n"
    "    first, last, _ = _core._row_ends(text, flags[1], False)\n"
    "    assert 0 <= first <= last <= len(text) and (first > 0) == (last > 0), (first, last)\n"
    "    stops = _core._row_stops(text, 1 + data[33] % 8, flags[1], record)\n"
    "    assert stops == sorted(set(stops)) and [0, *stops][-1] == len(text), stops\n";

static PyObject *one;

static void end(void)
{
    PyErr_Print();
    abort();
}

int LLVMFuzzerInitialize(int *count, char ***words)
{
    (void)count, (void)words;
    PyImport_AppendInittab("_core", PyInit__core);
    Py_InitializeEx(0);
    if (PyRun_SimpleString(DRIVER) < 0)
        end();
    one = PyObject_GetAttrString(PyImport_AddModule("__main__"), "one");
    return 0;
}

int LLVMFuzzerTestOneInput(const uint8_t *data, size_t size)
{
    PyObject *none = PyObject_CallFunction(one, "y#", (const char *)data, (Py_ssize_t)size);
    if (!none)
        end();
    Py_DECREF(none);
    return 0;
}
