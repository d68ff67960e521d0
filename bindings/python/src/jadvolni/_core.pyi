"""The calls of the library, by `_core.c`."""

from array import array
from typing import Any, Optional, Protocol, SupportsIndex, TypeVar, Union, overload

from _typeshed import ReadableBuffer

from ._fixed import Fixed
from ._format import Format
from ._table import Sparse

Text = Union[str, ReadableBuffer]

class DType(Protocol):
    """What numpy.dtype has."""

    @property
    def name(self) -> str: ...
    @property
    def isnative(self) -> bool: ...

# The name of a type, as "u8", a class of that name, as numpy.uint8, or a dtype. Not Literal: mypy
# takes the names in a dict of columns for any str.
NumberType = Union[str, type, DType]
_Kind = TypeVar("_Kind", bound=NumberType)

__version__: str

class ParseError(ValueError):
    kind: str
    place: int
    # An int of a column, or of a table, and else None: for callers, who know which, not Optional.
    field: Any
    start: Any
    row: Any
    line: Any
    column: Any
    row_start: Any
    row_stop: Any
    # The column's name, as the caller has it, and the first bytes of the cell.
    name: Any
    text: Any
    # Ints of a number that is out of bounds, and else None.
    min: Any
    max: Any

class FormatError(ValueError):
    kind: str
    place: None

def parse(
    text: Text,
    type: Union[NumberType, Fixed] = "i64",
    format: Optional[Format] = None,
    *,
    min: Optional[SupportsIndex] = None,
    max: Optional[SupportsIndex] = None,
) -> int: ...
def parse_front(
    text: Text, type: Union[NumberType, Fixed] = "i64", format: Optional[Format] = None
) -> tuple[int, int]: ...
def parse_partial(
    text: Text, type: NumberType = "i64", format: Optional[Format] = None
) -> tuple[int, int]: ...
def parse_literal(text: Text, format: Optional[Format] = None) -> tuple[int, str, int]: ...
def parse_typed_literal(
    text: Text, suffixes: dict[str, _Kind], format: Optional[Format] = None
) -> tuple[int, str, _Kind, int]: ...
@overload
def parse_column(
    text: Text,
    type: Union[NumberType, Fixed] = "i64",
    separator: Text = b"\n",
    format: Optional[Format] = None,
    *,
    has_returns: bool = False,
    allows_returns: bool = False,
    allows_blanks: bool = False,
    missing: None = None,
) -> array[int]: ...
@overload
def parse_column(
    text: Text,
    type: Union[NumberType, Fixed] = "i64",
    separator: Text = b"\n",
    format: Optional[Format] = None,
    *,
    has_returns: bool = False,
    allows_returns: bool = False,
    allows_blanks: bool = False,
    missing: Text,
) -> Sparse: ...
def line_column(text: Text, place: SupportsIndex) -> tuple[int, int]: ...
def _parse_part(
    text: Text,
    type: NumberType,
    separator: Text,
    format: Optional[Format],
    field: int,
    start: int,
) -> array[int]: ...
def _parse_table(
    text: Text,
    start: int,
    stop: int,
    is_last: bool,
    how: tuple[Any, ...],
    columns: tuple[Optional[tuple[Any, ...]], ...],
    at: int,
    rows: int,
    bad: int,
    /,
) -> tuple[int, int, int, tuple[tuple[Any, ...], ...]]: ...
def _arrow_schema(columns: tuple[Any, ...], is_table: bool, /) -> object: ...
def _arrow_array(columns: tuple[Any, ...], is_table: bool, rows: int, /) -> object: ...
def _arrow_stream(columns: tuple[Any, ...], rows: int, /) -> object: ...
def _keep_memory(size: int, /) -> None: ...
def _text_size(text: Text, /) -> int: ...
def _move_bits(to: Any, at: int, bits: Any, count: int, /) -> None: ...
def _lines(text: Text, start: int, stop: int, /) -> int: ...
def _row_ends(text: Text, has_quotes: bool, is_within: bool, /) -> tuple[int, int, bool]: ...
def _row_cells(row: bytes, separator: Text, has_quotes: bool, /) -> list[bytes]: ...
def _text_list(
    data: bytearray, offsets: Any, bits: Any, count: int, is_utf8: bool, /
) -> Optional[list[Any]]: ...
def _row_count(text: Text, record: int) -> int: ...
def _row_stops(text: Text, count: int, has_quotes: bool, record: int) -> list[int]: ...
def _array_code(type: Union[NumberType, Fixed], format: Optional[Format] = None, /) -> str: ...
def _check_format(format: Format) -> None: ...
def _check_fixed(fixed: Fixed) -> None: ...
