"""A slow reading of tables, to compare the built library with.

Written from crates/lexical_tables/README.md and the words of include/jadvolni.h, and not from the
code or the definitions in specs/, so that a slip there isn't repeated here. It goes through a text
byte by byte, and cuts all rows before it judges the first. An integer is read by
tools/reference.py, and a fixed-point number by tests/fixed/slow_fixed.py.
"""
from __future__ import annotations

import functools
import os
import sys
from dataclasses import dataclass
from typing import Dict, Iterator, List, NamedTuple, Optional, Sequence, Tuple, Union

TOP = os.path.join(os.path.dirname(os.path.abspath(__file__)), "..", "..")
sys.path.insert(0, os.path.join(TOP, "tests", "fixed"))
sys.path.insert(0, os.path.join(TOP, "tools"))

import slow_fixed  # noqa: E402
from reference import TYPES, Fault as NumberFault, Format, Value, parse  # noqa: E402

LINE_FEED, RETURN, QUOTE = 10, 13, 34
BLANKS = b" \t"
# The type of a column whose cells are read as texts.
TEXTS = b"text"


class Dialect(NamedTuple):
    """How a table is written."""

    separator: int = ord(",")
    columns: int = 2
    has_returns: bool = False
    has_quotes: bool = False
    allows_blanks: bool = False
    skips_empty_rows: bool = False
    missing: bytes = b""
    # The widths of cells, where no separator parts them; and whether no line feed ends a row then.
    widths: Optional[Sequence[int]] = None
    is_records: bool = False
    allows_returns: bool = False

    def size(self) -> int:
        """How many bytes a record has: as its widths say together, and one at least."""
        return max(1, sum(self.widths or ()))


@dataclass(frozen=True)
class Target:
    """What is read of a column: texts, or numbers of a type, which are integers under a format or
    fixed-point numbers; and whether they may miss."""

    type: bytes = b"u8"
    form: Format = Format()
    may_miss: bool = False
    fixed: Optional[slow_fixed.Fixed] = None

    def keeps_texts(self) -> bool:
        """Whether cells are read as texts."""
        return self.type == TEXTS


class Read(NamedTuple):
    """How far a table was read."""

    rows: int
    stop: int


class Wrong(NamedTuple):
    """The first wrong cell."""

    row: int
    column: int
    fault: str
    place: int


class Text(NamedTuple):
    """Where a text stands."""

    start: int
    size: int
    has_doubled_quotes: bool


# What a cell stands for; None where it misses.
CellValue = Union[int, Text, None]
# The value at each row and column that was read.
Numbers = Dict[Tuple[int, int], CellValue]


class Bad(NamedTuple):
    """A row at fault: its first wrong cell, and where the row is."""

    wrong: Wrong
    start: int
    stop: int


class Skipped(NamedTuple):
    """How far a table was read whose bad rows were skipped, and these."""

    rows: int
    bad: List[Bad]
    stop: int


Answer = Tuple[Union[Read, Wrong], Numbers]


class Piece(NamedTuple):
    """A row or a cell, without what ends it."""

    start: int
    stop: int


# ---- cutting

def ends_of(text: bytes, start: int, stop: int, end: int, has_quotes: bool) -> List[int]:
    """The places of an ending byte that stand outside quotes, or where it is the quote, all."""
    found, is_within = [], False
    for place in range(start, stop):
        if text[place] == end and not is_within:
            found.append(place)
        if has_quotes and text[place] == QUOTE != end:
            is_within = not is_within
    return found


def rows_of(text: bytes, dialect: Dialect) -> List[Piece]:
    """The rows: records, or each up to its line feed. Behind the last line feed there is none."""
    if dialect.is_records:
        starts = range(0, len(text), dialect.size())
        return [Piece(start, min(start + dialect.size(), len(text))) for start in starts]
    rows, start = [], 0
    for end in ends_of(text, 0, len(text), LINE_FEED, dialect.has_quotes):
        rows.append(Piece(start, end))
        start = end + 1
    return rows + [Piece(start, len(text))] if start < len(text) else rows


def wants_return(text: bytes, row: Piece, dialect: Dialect) -> bool:
    """Whether a line feed ends the row, and a return has to stand before it."""
    return dialect.has_returns and not dialect.is_records and row.stop < len(text)


def without_return(text: bytes, row: Piece, dialect: Dialect) -> Piece:
    """The row's cells: without the return before its line feed, where one may stand there."""
    may_stand = dialect.allows_returns and not dialect.is_records and row.stop < len(text)
    if not may_stand and not wants_return(text, row, dialect):
        return row
    return Piece(row.start, row.stop - text[row.start:row.stop].endswith(b"\r"))


def cells_by_widths(row: Piece, widths: Sequence[int]) -> List[Piece]:
    """The cells of a row that are wholly there, and one of what is left."""
    cells: List[Piece] = []
    start = row.start
    for width in widths:
        if start + width > row.stop:
            return cells
        cells.append(Piece(start, start + width))
        start += width
    return cells + [Piece(start, row.stop)] if start < row.stop else cells


def cells_of(text: bytes, row: Piece, dialect: Dialect) -> List[Piece]:
    """The cells of a row: by their widths, or one more than separators."""
    if dialect.widths is not None:
        return cells_by_widths(row, dialect.widths)
    ends = ends_of(text, row.start, row.stop, dialect.separator, dialect.has_quotes)
    starts = [row.start] + [end + 1 for end in ends]
    return [Piece(*both) for both in zip(starts, ends + [row.stop])]


# ---- a cell

def misplaced_quote(cell: bytes, is_number: bool) -> Optional[int]:
    """The place of the quote that breaks the rules of quotes."""
    if cell[:1] != b'"':
        return cell.index(b'"') if b'"' in cell else None
    if is_number:
        second = cell.find(b'"', 1)
        return 0 if second < 0 else None if second + 1 == len(cell) else second
    place = 1
    while place < len(cell):
        if cell[place] != QUOTE:
            place += 1
        elif cell[place + 1:place + 2] == b'"':
            place += 2
        else:
            return None if place + 1 == len(cell) else place
    return 0


def content_of(text: bytes, cell: Piece, dialect: Dialect, allows_blanks: bool) -> Piece:
    """What stands in the cell, without its quotes, and without blanks where they are allowed."""
    start, stop = cell
    if dialect.has_quotes and text[start:stop].startswith(b'"'):
        start, stop = start + 1, stop - 1
    while allows_blanks and start < stop and text[start] in BLANKS:
        start += 1
    while allows_blanks and start < stop and text[stop - 1] in BLANKS:
        stop -= 1
    return Piece(start, stop)


Fault = Tuple[str, int]


@functools.lru_cache(maxsize=1 << 16)
def number_in(target: Target, inner: bytes) -> Union[Value, NumberFault]:
    """The number of a column that is all of a text, or its fault. Answers are kept: most repeat."""
    if target.fixed is not None:
        return slow_fixed.read(target.fixed, TYPES[target.type], inner, False)
    return parse(target.form, TYPES[target.type], inner, False)


def value_of(text: bytes, cell: Piece, dialect: Dialect, target: Target) -> Union[Fault, CellValue]:
    """What a cell stands for, whose quotes are well: or its fault, or None where it misses.

    Blanks are bytes of a text as any others.
    """
    content = content_of(text, cell, dialect, dialect.allows_blanks and not target.keeps_texts())
    inner = text[content.start:content.stop]
    if target.may_miss and inner == dialect.missing:
        return None
    if target.keeps_texts():
        return Text(content.start, len(inner), dialect.has_quotes and QUOTE in inner)
    answer = number_in(target, inner)
    if isinstance(answer, Value):
        return answer.value
    return answer.name, content.start + (answer.place or 0)


def quote_fault(text: bytes, cell: Piece, dialect: Dialect,
                target: Optional[Target]) -> Optional[Fault]:
    """The fault of a cell's quotes. In a number no quote is doubled."""
    if not dialect.has_quotes:
        return None
    is_number = target is not None and not target.keeps_texts()
    place = misplaced_quote(text[cell.start:cell.stop], is_number)
    return None if place is None else ("MisplacedQuote", cell.start + place)


# ---- a row

def row_fault(text: bytes, row: Piece, cells: Sequence[Piece], kept: Piece,
              dialect: Dialect) -> Optional[Tuple[int, str, int]]:
    """The fault of the number of cells, or of the row's end."""
    if len(cells) < dialect.columns:
        return len(cells), "TooFewCells", kept.stop
    if len(cells) > dialect.columns:
        return dialect.columns, "TooManyCells", cells[dialect.columns].start
    if wants_return(text, row, dialect) and kept == row:
        return dialect.columns, "MissingReturn", row.stop
    return None


def cell_answer(text: bytes, cell: Piece, dialect: Dialect,
                target: Optional[Target]) -> Union[Fault, CellValue]:
    """What a cell stands for, or its fault. None is also that of a column that isn't read."""
    fault = quote_fault(text, cell, dialect, target)
    if fault is not None or target is None:
        return fault
    return value_of(text, cell, dialect, target)


def read_row(text: bytes, row: Piece, dialect: Dialect, targets: Sequence[Optional[Target]],
             put: Dict[int, CellValue]) -> Optional[Tuple[int, str, int]]:
    """Reads a row: its values by their columns, and its first fault."""
    kept = without_return(text, row, dialect)
    cells = cells_of(text, kept, dialect)
    for column, cell in enumerate(cells[:dialect.columns]):
        target = targets[column] if column < len(targets) else None
        answer = cell_answer(text, cell, dialect, target)
        if isinstance(answer, tuple) and not isinstance(answer, Text):
            return (column, *answer)
        if target is not None:
            put[column] = answer
    return row_fault(text, row, cells, kept, dialect)


def counted_rows(text: bytes, dialect: Dialect) -> Iterator[Piece]:
    """The rows that count: where empty ones are skipped, those with a byte."""
    for row in rows_of(text, dialect):
        kept = without_return(text, row, dialect)
        if not dialect.skips_empty_rows or kept.start < kept.stop:
            yield row


def read(text: bytes, dialect: Dialect, targets: Sequence[Optional[Target]], room: int) -> Answer:
    """What a table is, read up to a limit of rows, and the numbers that were read."""
    numbers: Numbers = {}
    rows = list(counted_rows(text, dialect))
    for number, row in enumerate(rows[:room]):
        put: Dict[int, CellValue] = {}
        fault = read_row(text, row, dialect, targets, put)
        numbers.update({(number, column): value for column, value in put.items()})
        if fault is not None:
            return Wrong(number, *fault), numbers
    stop = rows[room].start if room < len(rows) else len(text)
    return Read(min(room, len(rows)), stop), numbers


def whole_rows(text: bytes, dialect: Dialect) -> int:
    """Where the last whole row of a part ends, behind its line feed."""
    if dialect.is_records:
        return len(text) - len(text) % dialect.size()
    ends = ends_of(text, 0, len(text), LINE_FEED, dialect.has_quotes)
    return ends[-1] + 1 if ends else 0


def read_part(text: bytes, is_last: bool, dialect: Dialect, targets: Sequence[Optional[Target]],
              room: int) -> Answer:
    """The same of a part of a text, whose cut row is left."""
    return read(text if is_last else text[:whole_rows(text, dialect)], dialect, targets, room)


# ---- bad rows

def row_places(text: bytes, dialect: Dialect) -> List[Tuple[int, int]]:
    """Where each row starts, and where the next one does."""
    starts = [row.start for row in counted_rows(text, dialect)] + [len(text)]
    return list(zip(starts, starts[1:]))


def read_skipping(text: bytes, is_last: bool, dialect: Dialect,
                  targets: Sequence[Optional[Target]], room: int) -> Tuple[Skipped, Numbers]:
    """The right rows up to the limit, and the bad ones before the last of them.

    Values go by their places in the arrays. Those of a bad row are overwritten by the next row.
    """
    text = text if is_last else text[:whole_rows(text, dialect)]
    numbers: Numbers = {}
    bad: List[Bad] = []
    count = 0
    stop = len(text)
    places = row_places(text, dialect)
    for number, row in enumerate(counted_rows(text, dialect)):
        if count == room:
            stop = row.start
            break
        put: Dict[int, CellValue] = {}
        fault = read_row(text, row, dialect, targets, put)
        numbers.update({(count, column): value for column, value in put.items()})
        if fault is None:
            count += 1
        else:
            bad.append(Bad(Wrong(number, *fault), *places[number]))
    return Skipped(count, bad, stop), numbers
