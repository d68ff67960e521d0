"""Faults in the rows of a table, their messages, and who receives them."""

from __future__ import annotations

import codecs
from contextlib import contextmanager
from typing import (TYPE_CHECKING, Any, Callable, Iterator, Literal, NamedTuple, Optional, Protocol,
                    Sequence, Union)

from ._core import ParseError, _lines

if TYPE_CHECKING:
    from ._core import Text

# An error shows at most this many bytes of a cell.
SHOWN = 40
# What a message adds about a line that ends before its widths do.
TRIMMED = ": pad it if its last blanks were trimmed"
# How texts in UTF-16 and compressed files begin, and what a message says of each.
_HINTS = {
    b"\xff\xfe": "the text may be UTF-16, and has to be UTF-8",
    b"\xfe\xff": "the text may be UTF-16, and has to be UTF-8",
    b"\x1f\x8b": "this file is gzip-compressed: open it with gzip.open",
    b"PK\x03\x04": "this file is a zip archive: open what is in it with zipfile",
}


class Sink(Protocol):
    """What receives errors: a list, a deque, or anything else with `append`."""

    def append(self, error: ParseError, /) -> object:
        """Receives one more error."""


# What is done with bad rows.
OnError = Literal["raise", "skip"]
# Who receives the errors of bad rows.
Errors = Union[Sink, Callable[[ParseError], object], None]


class AtFault(NamedTuple):
    """What is done at a fault: whether bad rows are skipped, who receives their errors, and the
    file's name, with which messages begin."""

    skips: bool = False
    tell: Optional[Callable[[ParseError], object]] = None
    source: str = ""


def at_fault(on_error: object, errors: Any, source: object = None) -> AtFault:
    """What is done at a fault, by the arguments of a call.

    ValueError is raised for another `on_error`, and for `errors` unless bad rows are skipped, and
    TypeError for `errors` that can't receive any.
    """
    if on_error not in ("raise", "skip"):
        raise ValueError(f"on_error has to be 'raise' or 'skip', and not {on_error!r}")
    skips = on_error == "skip"
    if errors is not None and not skips:
        raise ValueError("errors has to be None unless on_error is 'skip'")
    tell = None if errors is None else getattr(errors, "append", errors)
    if tell is not None and not callable(tell):
        kind = type(errors).__name__
        raise TypeError(f"errors has to be a list, a function or None, and not {kind}")
    return AtFault(skips, tell, _printable(source) if isinstance(source, str) else "")


@contextmanager
def noting(source: str) -> Iterator[None]:
    """Notes the file's name, if there is one, on what is wrong with a header. The message of a
    ParseError has it already."""
    try:
        yield
    except ValueError as error:
        if source and not isinstance(error, ParseError):
            error.add_note(f"The file is {source}.")
        raise


def _printable(name: str) -> str:
    """A file's name, which may be any bytes, as a message shows it."""
    return "".join(it if it.isprintable() else _escaped(it) for it in name)


def hint_at(text: Text) -> str:
    """What a message adds if a text begins like a compressed file, or like one in UTF-16."""
    if isinstance(text, str):
        return ""
    with memoryview(text) as view:
        begin = view[:4].tobytes()
    return next((f"; {it}" for mark, it in _HINTS.items() if begin.startswith(mark)), "")


class Part:
    """A text as a part of a file, and how many bytes and lines stand before it. It ends where a row
    ends."""

    def __init__(self, start: int = 0, line: int = 0) -> None:
        self.start, self.line = start, line
        self._counted = self._lines = 0

    def lines_before(self, text: Text, place: int) -> int:
        """How many line feeds of the text stand before a place. Later places count on from it."""
        if place < self._counted:
            self._counted = self._lines = 0
        self._lines += _lines(text, self._counted, place)
        self._counted = place
        return self._lines


class Fault(NamedTuple):
    """What is wrong with a row, as `_parse_table` reports it, with the line of its place, and a
    hint if it is the first row. `size` is how many bytes it has before its end."""

    kind: str
    message: str
    row: int
    column: int
    place: int
    row_start: int
    row_stop: int
    cell: int
    text: bytes
    size: int
    line: int = 0
    hint: str = ""

    def behind(self, row: int, start: int, line: int) -> Fault:
        """The same fault, counted with the rows, bytes and lines before its part."""
        return Fault(self.kind, self.message, self.row + row, self.column, self.place + start,
                     self.row_start + start, self.row_stop + start, self.cell + start, self.text,
                     self.size, self.line + line, "" if start else self.hint)


def _escaped(character: str) -> str:
    """A character as a message shows it, also one that stands for a byte that isn't UTF-8."""
    if character in '"\\':
        return "\\" + character
    if character.isprintable():
        return character
    if "\udc80" <= character <= "\udcff":
        return f"\\x{ord(character) - 0xDC00:02x}"
    return character.encode("unicode_escape").decode()


def _quoted(text: str) -> str:
    """A text as a message shows it, in quotes."""
    if not text.isprintable() or '"' in text or "\\" in text:
        text = "".join(map(_escaped, text))
    return f'"{text}"'


def _shown(text: bytes) -> str:
    """The first bytes of a cell, as a message shows them."""
    is_cut = len(text) > SHOWN
    decoder = codecs.getincrementaldecoder("utf-8")("surrogateescape")
    return _quoted(decoder.decode(text[:SHOWN], not is_cut)) + (".." if is_cut else "")


def _message(fault: Fault, name: object, where: str) -> str:
    """The message of a fault. It counts lines and columns from 1, as editors do, and bytes from 0.
    """
    column = f"column {fault.column + 1}"
    if isinstance(name, str):
        column = _quoted(name[:SHOWN]) + (".." if len(name) > SHOWN else "")
    if fault.kind == "TooFewCells":
        return f"{where}: {fault.message}, none for {column}"
    if fault.kind == "MissingReturn":
        return f"{where}: {fault.message}"
    message = f"{where}, {column}: {_shown(fault.text)}: {fault.message}"
    if fault.kind == "TooManyCells":
        return message
    return f"{message} at byte {fault.place - fault.cell} of the cell"


def _hint(fault: Fault, width: Optional[int], has_records: bool) -> str:
    """What a message adds if a row is empty, or ends before a cell of the widths does, which have
    `width` bytes together."""
    if fault.size == 0 and not has_records:
        return "; the row is empty: skips_empty_rows may have to be True"
    if width is None:
        return ""
    if fault.size == 0 and fault.row_stop - fault.row_start < width:
        return "; the row is only a line end, and records have none"
    if fault.kind != "TooFewCells":
        return ""
    hint = "" if has_records else TRIMMED
    return f"; the row has {fault.size} of the {width} bytes of its widths{hint}"


def error_of(
    fault: Fault, names: Sequence[Any], width: Optional[int], has_records: bool, source: str
) -> ParseError:
    """The exception for a fault that is counted over the whole text or file. Its message begins
    with the file's name, if `source` has one. `width` is that of all cells, if they have widths."""
    name = names[fault.column] if fault.column < len(names) else None
    where = f"row {fault.row + 1}" if has_records else f"line {fault.line + 1}"
    message = _message(fault, name, f"{source}, {where}" if source else where)
    error = ParseError(message + (fault.hint or _hint(fault, width, has_records)))
    error.kind, error.place, error.line = fault.kind, fault.place, fault.line
    error.row, error.column, error.name = fault.row, fault.column, name
    error.row_start, error.row_stop = fault.row_start, fault.row_stop
    error.text = fault.text[:SHOWN]
    return error
