"""How a table is written, and what is read of it."""

from __future__ import annotations

import sys
from array import array
from typing import TYPE_CHECKING, Any, Iterable, Mapping, NamedTuple, Optional, Union

from ._arrays import new_array, numpy_or_none, zeros
from ._core import _array_code, _parse_table, _row_count, _text_size
from ._faults import AtFault, Fault, Part, error_of, hint_at
from ._format import Format
from ._header import ask_names
from . import _texts
from ._table import Sparse, Table
from ._widths import ask_count, sizes_of

if TYPE_CHECKING:
    from ._core import NumberType, ParseError, Text
    from ._fixed import Fixed

    # What is read of a column: None, a type, a Fixed, a Text or a Column. Checkers of types take a
    # dict that has several of these for one of any objects.
    Columns = Mapping[str, Any]


class Column(NamedTuple):
    """How a column of a table is read.

    type: a type of up to 64 bits, such as "i64". A Fixed reads fixed-point numbers, in units of
    their last place, and a Text reads texts; neither goes with a format.
    format: the Format of the numbers, or None for plain decimal ones.
    may_miss: whether a cell may be the table's `missing`. Numbers then become a Sparse, and texts
    are None there.

    Calls on tables raise TypeError for a Text or a Fixed with a format.
    """

    type: Union[NumberType, Fixed, _texts.Text]
    format: Optional[Format] = None
    may_miss: bool = False


class How(NamedTuple):
    """How a table is written: the arguments of parse_table."""

    separator: Optional[Text] = None
    has_returns: bool = False
    has_quotes: bool = False
    allows_blanks: bool = False
    skips_empty_rows: bool = False
    missing: Text = b""
    widths: Optional[Iterable[int]] = None
    is_records: bool = False
    allows_returns: bool = False


# Where bad rows are reported, this many bytes are read at once, and at most this many errors kept.
_WINDOW = 1 << 18
_MOST_BAD = 4096


def ask_type(name: str, value: object, kind: Any, wanted: str) -> None:
    """Raises TypeError unless an argument is of a type."""
    if not isinstance(value, kind):
        raise TypeError(f"{name} has to be {wanted}, and not {type(value).__name__}")


def _ask_column(name: str, column: Column) -> None:
    """Raises TypeError or ValueError, and notes the column, unless its type is one of a table, and
    its format goes with it."""
    more = ""
    try:
        if not isinstance(column.type, _texts.Text):
            more = " Its type may also be jadvolni.Text() or a jadvolni.Fixed."
            _array_code(column.type)
            more = " may_miss comes after it, or by its name." if column.format is True else ""
            _array_code(column.type, column.format)
        elif column.format is not None:
            raise TypeError("format has to be None where the type is a Text")
    except (TypeError, ValueError) as error:
        error.add_note(f"The column is {name!r}.{more}")
        raise


def pair_of(values: Any) -> tuple[Any, Any]:
    """The numbers of a column, and its bits or None."""
    numbers, bits = values[:2] if isinstance(values, tuple) else (values, None)
    return numbers, bits


def _data_of(values: Any) -> Optional[bytearray]:
    """Where the bytes of a text column go, or None for a column of numbers."""
    return values.data if isinstance(values, _texts.Room) else None


def with_pair(values: Any, numbers: Any, bits: Any) -> Any:
    """A column like another, with these numbers, and bits or None. Texts keep their bytes."""
    if isinstance(values, _texts.Room):
        return values._replace(sizes=numbers, bits=bits)
    return numbers if bits is None else Sparse(numbers, bits)


class Reader:
    """How a table is written, and what is read of it, once both are checked."""

    def __init__(
        self, columns: Columns, how: How, at: AtFault, names: Optional[list[str]] = None
    ) -> None:
        ask_type("columns", columns, Mapping, "a dict")
        self.read = {name: it if isinstance(it, Column) else Column(it)
                     for name, it in columns.items() if it is not None}
        for name, column in self.read.items():
            _ask_column(name, column)
        if names is not None:
            ask_names(columns, names, how)
        # The cells of a row, each with its name; a name that isn't read may come twice.
        self.cells = list(columns if names is None else names)
        sizes = array("Q")
        if how.widths is not None:
            sizes = sizes_of(how.widths)
            ask_count(sizes, len(self.cells))
        # How many bytes the cells of a row have together, if they have widths.
        self.width = None if how.widths is None else sum(sizes)
        separator = b"," if how.separator is None else how.separator
        self.how = (separator, *how[1:6], sizes, how.is_records, how.allows_returns)
        self.has_quotes = bool(how.has_quotes)
        self.record = min(max(sum(sizes), 1), sys.maxsize) if how.is_records else 0
        self.at_fault = at
        # How many bad rows are reported at once, or -1 if the first ends the reading.
        self.most_bad = -1 if not at.skips else _MOST_BAD if at.tell else 0
        # Whether each row is a line, and each line a row.
        self.is_by_lines = not (self.has_quotes or how.skips_empty_rows or self.record)
        # A row has at least this many bytes, unless it is the last: its cells and a line feed.
        self.least = self.record or (sum(sizes) + 1 if sizes else max(len(self.cells), 1))
        self.numpy = numpy_or_none()
        # How many rows there were for each byte, as seen last, and at most how many at once: they
        # say how much room a text needs.
        self.rate, self.seen = 0.0, 0

    def room(self, rows: int) -> Table:
        """Arrays with room for `rows` rows, whose numbers may be any."""
        return Table({name: self.room_of(column, rows) for name, column in self.read.items()})

    def room_of(self, column: Column, rows: int) -> Any:
        """The arrays that a column of `rows` rows is read into."""
        kind, bits = column.type, self.bits(rows) if column.may_miss else None
        if isinstance(kind, _texts.Text):
            sizes = new_array(self.numpy, "q", rows)
            return _texts.Room(sizes, bits, bytearray(), kind.encoding)
        numbers = new_array(self.numpy, _array_code(kind), rows)
        return numbers if bits is None else Sparse(numbers, bits)

    def bits(self, rows: int) -> Any:
        """The bits of `rows` rows, all of them 0."""
        return zeros(self.numpy, "B", (rows + 7) // 8)

    def targets(self, arrays: dict[str, Any]) -> tuple[Optional[tuple[Any, ...]], ...]:
        """Where the cells of a row go and how they are read, as `_parse_table` takes it."""
        read = {name: (*pair_of(arrays[name]), it.type, it.format, _data_of(arrays[name]))
                for name, it in self.read.items()}
        return tuple(map(read.get, self.cells))

    def parse(
        self,
        text: Text,
        place: int,
        targets: tuple[Optional[tuple[Any, ...]], ...],
        at: int,
        rows: int,
        most_bad: int = -1,
    ) -> tuple[int, int, int, tuple[tuple[Any, ...], ...], bool]:
        """Reads at most `rows` rows of a text, from a place on, into the targets from row `at` on.

        Returns how many good rows there were, the length of all rows in bytes, how many bad ones
        were skipped, the faults that are reported, and whether no further row follows.

        With `most_bad` -1, the first bad row is reported, and ends the reading. Otherwise bad rows
        are skipped, and at most `most_bad` reported; the next call goes on after them.
        """
        if most_bad <= 0:
            found = _parse_table(text, place, sys.maxsize, True, self.how, targets, at, rows,
                                 most_bad)
            return *found, found[0] < rows
        size, window = _text_size(text), _WINDOW
        while True:
            to = min(place + window, size)
            count, length, bad, faults = _parse_table(
                text, place, to, to == size, self.how, targets, at, rows, most_bad)
            if length or to == size:
                return count, length, bad, faults, to == size and count < rows and bad < most_bad
            window *= 2

    def fault(self, known: tuple[Any, ...], text: Text, part: Part, row: int) -> Fault:
        """A fault in a part of a text or file, of which `row` rows were read before."""
        fault = Fault(*known)
        if fault.row_start == 0:
            fault = fault._replace(hint=hint_at(text))
        lines = row + fault.row if self.is_by_lines else part.lines_before(text, fault.place)
        return fault.behind(row, part.start, part.line + lines)

    def error(self, fault: Fault, row: int = 0, start: int = 0, line: int = 0) -> ParseError:
        """The exception for a fault, counted with the rows, bytes and lines before its part."""
        if row or start or line:
            fault = fault.behind(row, start, line + row if self.is_by_lines else line)
        return error_of(fault, self.cells, self.width, bool(self.record), self.at_fault.source)

    def lines_in(self, text: bytes | memoryview) -> int:
        """How many line feeds a text has, or 0 if each row is a line: then rows are counted."""
        if self.is_by_lines or not text:
            return 0
        # (a view of characters equals no bytes)
        return _row_count(text, 0) - (bytes(text[-1:]) != b"\n")
