"""A consumer of Arrow's C data interface, by the structs of its specification alone."""

import ctypes
from ctypes import CFUNCTYPE, POINTER, Structure, c_char_p, c_int, c_int64, c_void_p, pointer

TYPES = {"c": ctypes.c_int8, "C": ctypes.c_uint8, "s": ctypes.c_int16, "S": ctypes.c_uint16,
         "i": ctypes.c_int32, "I": ctypes.c_uint32, "l": ctypes.c_int64, "L": ctypes.c_uint64}


class Schema(Structure):
    """struct ArrowSchema."""


class Array(Structure):
    """struct ArrowArray."""


class Stream(Structure):
    """struct ArrowArrayStream."""


RELEASE = {kind: CFUNCTYPE(None, POINTER(kind)) for kind in (Schema, Array, Stream)}
Schema._fields_ = [("format", c_char_p), ("name", c_char_p), ("metadata", c_char_p),
                   ("flags", c_int64), ("n_children", c_int64),
                   ("children", POINTER(POINTER(Schema))), ("dictionary", POINTER(Schema)),
                   ("release", RELEASE[Schema]), ("private_data", c_void_p)]
Array._fields_ = [("length", c_int64), ("null_count", c_int64), ("offset", c_int64),
                  ("n_buffers", c_int64), ("n_children", c_int64), ("buffers", POINTER(c_void_p)),
                  ("children", POINTER(POINTER(Array))), ("dictionary", POINTER(Array)),
                  ("release", RELEASE[Array]), ("private_data", c_void_p)]
Stream._fields_ = [("get_schema", CFUNCTYPE(c_int, POINTER(Stream), POINTER(Schema))),
                   ("get_next", CFUNCTYPE(c_int, POINTER(Stream), POINTER(Array))),
                   ("get_last_error", CFUNCTYPE(c_char_p, POINTER(Stream))),
                   ("release", RELEASE[Stream]), ("private_data", c_void_p)]
NAMES = {Schema: b"arrow_schema", Array: b"arrow_array", Stream: b"arrow_array_stream"}

_pointer_of = ctypes.pythonapi.PyCapsule_GetPointer
_pointer_of.restype, _pointer_of.argtypes = c_void_p, [ctypes.py_object, c_char_p]


class Consumed(Exception):
    """Another consumer had taken it before."""


def taken(capsule, kind):
    """What a capsule has, moved out of it: it's the caller's to release."""
    ours = ctypes.cast(_pointer_of(capsule, NAMES[kind]), POINTER(kind)).contents
    if not ours.release:
        raise Consumed
    moved = kind()
    ctypes.pointer(moved)[0] = ours
    ours.release = RELEASE[kind](0)
    return moved


def release(it):
    """Releases a struct, which says so."""
    it.release(pointer(it))
    assert not it.release


def texts(schema, array):
    """The texts of an array, also those that are missing: str of UTF-8, or bytes."""
    places = list((c_int64 * (array.length + 1)).from_address(array.buffers[1]))
    assert places[0] == 0 and places == sorted(places)
    found = [ctypes.string_at((array.buffers[2] or 0) + start, stop - start)
             for start, stop in zip(places, places[1:])]
    return [it.decode() for it in found] if schema.format == b"U" else found


def column(schema, array):
    """The numbers or texts of an array, with None for each that is missing."""
    is_text = schema.format in (b"U", b"Z")
    assert (array.n_children, array.n_buffers, array.offset) == (0, 2 + is_text, 0)
    if is_text:
        numbers = texts(schema, array)
    else:
        kind = TYPES[schema.format.decode()]
        numbers = (kind * array.length).from_address(array.buffers[1]) if array.length else []
    if not array.buffers[0]:
        assert array.null_count == 0
        return list(numbers)
    assert schema.flags & 2
    bits = (ctypes.c_uint8 * ((array.length + 7) // 8)).from_address(array.buffers[0])
    return [number if bits[k >> 3] >> (k & 7) & 1 else None for k, number in enumerate(numbers)]


def table(schema, array):
    """The columns of a struct array, by their names."""
    assert schema.format == b"+s" and schema.n_children == array.n_children
    assert array.n_buffers == 1 and not array.buffers[0]
    parts = [(schema.children[k].contents, array.children[k].contents)
             for k in range(array.n_children)]
    assert all(it.length == array.length for _, it in parts)
    return {it.name.decode(): column(it, values) for it, values in parts}


def read(capsules, reader):
    """What a schema and an array have, which are released afterwards."""
    schema, array = taken(capsules[0], Schema), taken(capsules[1], Array)
    try:
        return reader(schema, array)
    finally:
        release(schema)
        release(array)


def tables(capsule):
    """The tables of a stream."""
    stream, schema, found = taken(capsule, Stream), Schema(), []
    assert stream.get_schema(pointer(stream), pointer(schema)) == 0
    while True:
        array = Array()
        assert stream.get_next(pointer(stream), pointer(array)) == 0
        if not array.release:
            break
        found.append(table(schema, array))
        release(array)
    release(schema)
    release(stream)
    return found
