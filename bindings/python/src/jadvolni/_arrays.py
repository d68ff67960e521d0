"""Arrays of numbers: NumPy's if it is installed, otherwise those of the module array."""

from __future__ import annotations

from array import array
from typing import Any

# Room for this many numbers isn't given back.
_FEW = 512
# An array grows by this many zeros at once, which stay in a processor's cache.
_PIECE = 1 << 13


def numpy_or_none() -> Any:
    """The module NumPy, or None if it isn't installed. Called once a call: a search takes long."""
    try:
        import numpy
    except ImportError:
        return None
    return numpy


def new_array(numpy: Any, code: str, count: int) -> Any:
    """An array of `count` numbers, which may be any."""
    return array(code, [0]) * count if numpy is None else numpy.empty(count, code)


def zeros(numpy: Any, code: str, count: int) -> Any:
    """An array of `count` zeros."""
    return array(code, [0]) * count if numpy is None else numpy.zeros(count, code)


def grown(numpy: Any, values: Any, count: int, kept: int) -> Any:
    """An array with room for `count` numbers, which begins with the first `kept` of another.

    New bytes are 0, since those of bits are not all written.
    """
    if numpy is None:
        piece = array(values.typecode, [0]) * min(_PIECE, count - len(values))
        while len(values) < count:
            values.extend(piece[:count - len(values)])
        return values
    code = values.dtype.char
    more = zeros(numpy, code, count) if code == "B" else new_array(numpy, code, count)
    more[:kept] = values[:kept]
    return more


def cut(values: Any, count: int) -> Any:
    """The first `count` numbers of an array that nobody else has.

    Much spare room is given back. A little isn't: that would cost more than it saves.
    """
    if isinstance(values, array):
        del values[count:]
        return values
    if len(values) - count > len(values) // 4 + _FEW:
        values.resize(count, refcheck=False)
    return values if len(values) == count else values[:count]


def copy_front(values: Any, count: int, to: Any, place: int) -> None:
    """Copies the first `count` numbers of an array to a place of another. NumPy lets other threads
    run meanwhile."""
    if isinstance(to, array):
        with memoryview(values) as numbers, memoryview(to) as places:
            places[place:place + count] = numbers[:count]
    else:
        to[place:place + count] = values[:count]
