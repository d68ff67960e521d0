"""Integers from bytes, under formats, with the byte at which a text is wrong.

    >>> import jadvolni
    >>> jadvolni.parse(b"-12", "i8")
    -12
    >>> jadvolni.parse("FF", "u8", jadvolni.Format(mantissa_radix=16))
    255
    >>> jadvolni.parse_front(b"12px", "u16")
    (12, 2)
    >>> jadvolni.parse_literal("0xFFull;", jadvolni.formats.C)
    (255, 'ull', 7)
    >>> jadvolni.parse_typed_literal("1_000u16;", {"": "i32", "u16": "u16"}, jadvolni.formats.RUST)
    (1000, 'u16', 'u16', 8)
    >>> jadvolni.parse("-1.234,50", jadvolni.Fixed("i64", places=2, point=",", group="."))
    -123450
    >>> list(jadvolni.parse_column(b"12,7,", "u64", b","))
    [12, 7]
    >>> jadvolni.parse(b"18446744073709551616", "u64")
    Traceback (most recent call last):
    ...
    jadvolni.ParseError: overflow at byte 19: b'18446744073709551616'

The types are u8, u16, u32, u64, u128, usize, i8, i16, i32, i64, i128 and isize.

The parsers are those of the library `jadvolni`, whose results are proved. This module passes texts
to them and returns their numbers; it is tested, and not proved.
"""

from ._core import (
    FormatError,
    ParseError,
    __version__,
    line_column,
    parse,
    parse_column,
    parse_front,
    parse_literal,
    parse_partial,
    parse_typed_literal,
)
from . import formats
from ._fixed import Fixed
from ._format import Format
from ._blocks import iter_column
from ._numpy import numpy_column
from ._reader import Column
from ._table import Sparse, Table
from ._texts import Text, TextColumn
from ._tables import iter_table, parse_table, read_table

__all__ = [
    "Column",
    "Fixed",
    "Format",
    "FormatError",
    "ParseError",
    "Sparse",
    "Table",
    "Text",
    "TextColumn",
    "__version__",
    "formats",
    "iter_column",
    "iter_table",
    "line_column",
    "numpy_column",
    "parse",
    "parse_column",
    "parse_front",
    "parse_literal",
    "parse_partial",
    "parse_table",
    "parse_typed_literal",
    "read_table",
]
