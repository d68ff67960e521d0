"""The header of a table: its first line or record, which names the columns."""

from __future__ import annotations

import re
from collections import Counter
from itertools import chain
from typing import TYPE_CHECKING, Iterator, Sequence

from ._blocks import Block, too_long
from ._core import _row_cells, _row_ends
from ._faults import SHOWN, Part, hint_at
from ._format import bytes_of
from ._widths import header_cells, sizes_of

if TYPE_CHECKING:
    from ._reader import Columns, How

_MARK = b"\xef\xbb\xbf"  # the byte order mark, which some programs write before UTF-8
# A message lists at most this many names.
_LISTED = 40
# The separators that tables usually have.
_SEPARATORS = b",;\t|"


def _name(cell: bytes, how: How) -> str:
    """The name in a header's cell, without quotes and blanks if the table has them."""
    if how.allows_blanks:
        cell = cell.strip(b" \t")
    if how.has_quotes and len(cell) > 1 and cell[:1] == cell[-1:] == b'"':
        cell = cell[1:-1].replace(b'""', b'"')
        cell = cell.strip(b" \t") if how.allows_blanks else cell
    return cell.decode("utf-8", "surrogateescape")


def _without_end(line: bytes, how: How) -> bytes:
    """A line without what ends it. A record has no end."""
    if how.is_records:
        return line
    is_ended = line.endswith(b"\n")
    line = line.removesuffix(b"\n")
    is_returned = how.has_returns or (how.allows_returns and is_ended)
    return line.removesuffix(b"\r") if is_returned else line


def names_of(line: bytes, how: How) -> list[str]:
    """The names in a header's line or record."""
    line = _without_end(line, how)
    if how.widths is not None:
        cells = header_cells(line, sizes_of(how.widths), how.is_records)
        return [_name(cell, how) for cell in cells]
    separator = b"," if how.separator is None else how.separator
    # Quotes have a meaning if all of them close.
    has_quotes = bool(how.has_quotes) and line.count(b'"') % 2 == 0
    return [_name(cell, how) for cell in _row_cells(line + b"\n", separator, has_quotes)]


def with_header(how: How, header: bool) -> How:
    """How a table is written, once `header` is checked. Widths become an array: the header's cells
    need them too."""
    if not isinstance(header, bool):
        raise TypeError(f"header has to be True or False, and not {type(header).__name__}")
    if how.widths is not None and how.separator is not None:
        raise ValueError("separator has to be None where there are widths")
    if how.is_records and how.widths is None:
        raise ValueError("widths have to be there where is_records is true")
    return how._replace(widths=sizes_of(how.widths)) if header and how.widths is not None else how


def _behind_empty_rows(blocks: Iterator[Block], how: How) -> tuple[Iterator[Block], Part]:
    """The blocks of a text after the empty rows at its front, if the table skips those, and how
    many bytes and lines they have."""
    if not how.skips_empty_rows:
        return blocks, Part()
    # (an empty row that lacks its return is skipped too, even if the table asks for returns)
    end = rb"\r?\n" if how.has_returns or how.allows_returns else rb"\n"
    # ("++" looks back at no row, and so keeps none in memory)
    empty, left, start, lines = re.compile(b"(?:%b)++" % end), b"", 0, 0
    for block in blocks:
        left += block
        if block and _MARK.startswith(left):
            continue
        at = len(_MARK) if start == 0 and left.startswith(_MARK) else 0
        found = empty.match(left, at)
        stop = found.end() if found else 0
        is_begun = left[stop or at:] not in (b"", b"\r")
        start, lines, left = start + stop, lines + left.count(b"\n", 0, stop), left[stop:]
        if is_begun or not block:
            break
    return chain([left], blocks, [b""]), Part(start=start, line=lines)


def read_header(
    blocks: Iterator[Block], how: How, size: int
) -> tuple[list[str], Iterator[Block], Part]:
    """The names of a header, the blocks after it, and how many bytes and lines stand before them.

    ValueError is raised for a header of more than `size` bytes, for a text without a byte, and for
    one with returns and no line feed.
    """
    if how.is_records:
        skipped, (line, rest) = Part(), _first_record(blocks, max(sum(how.widths or ()), 1), size)
    else:
        blocks, skipped = _behind_empty_rows(blocks, how)
        line, rest = _first_line(blocks, how, size, skipped.start)
    before = Part(start=skipped.start + len(line), line=skipped.line + line.count(b"\n"))
    names = names_of(bytes(line if skipped.start else line.removeprefix(_MARK)), how)
    return names, chain([rest] if rest else [], blocks), before


def _first_record(blocks: Iterator[Block], record: int, size: int) -> tuple[bytes, bytes]:
    """The first record, with a byte order mark that stands before it, and what was read after it.
    """
    text = bytearray()
    for block in blocks:
        text += block
        may_be_mark = len(text) < len(_MARK) and _MARK.startswith(text)
        stop = record + (len(_MARK) if text.startswith(_MARK) else 0)
        if min(len(text), stop) > size:
            raise too_long("the header", size)
        if not block or (len(text) >= stop and not may_be_mark):
            break
    if not text:
        raise ValueError("there is no header: the text has no byte")
    return bytes(text[:stop]), bytes(text[stop:])


def _first_line(
    blocks: Iterator[Block], how: How, size: int, before: int
) -> tuple[bytes, bytes]:
    """The first line, and what was read after it, of a text after `before` bytes.

    A line feed within quotes doesn't end it, unless the quotes never close.
    """
    line, is_within = bytearray(), False
    for block in blocks:
        end, _, is_within = _row_ends(block, how.has_quotes, is_within)
        start = len(line)
        line += block[:end] if end else block
        if len(line) > size:
            is_open = is_within and not end  # (behind its end, the next row may have a quote)
            raise too_long("the header", size, _quote_in(line, before) if is_open else None)
        if end or not block:
            break
    if not line:
        raise ValueError("there is no header: the text has no byte")
    if not end and b"\r" in line[:-1] and b"\n" not in line:
        raise ValueError("the text has returns and no line feed, which has to end each line"
                         f"{hint_at(line)}")
    if not end and is_within and b"\n" in line:
        end = line.index(b"\n") + 1
        return bytes(line[:end]), bytes(line[end:])
    return bytes(line), bytes(memoryview(block)[len(line) - start:])


def _quote_in(line: bytes, start: int) -> int:
    """The place of the quote that a header, which starts at byte `start`, leaves open."""
    return start + line.rfind(b'"', 0, (line + b"\n").index(b"\n"))


def _shown(name: object) -> str:
    """A name as a message shows it, which may be all of a file that has no line feed."""
    if isinstance(name, str) and len(name) > SHOWN:
        return f"{name[:SHOWN]!r}.."
    return repr(name)


def _listed(names: Sequence[str]) -> str:
    """Names as a message lists them, the first of them if they are many."""
    more = f" and {len(names) - _LISTED} more" if len(names) > _LISTED else ""
    return ", ".join(map(_shown, names[:_LISTED])) + more


def _hint(names: Sequence[str], missing: Sequence[str], how: How) -> str:
    """What a message says of why a header may lack names."""
    if hint := hint_at(names[0].encode("utf-8", "surrogateescape")):
        return hint
    if names == [""] and not how.skips_empty_rows:
        return "; the first row is empty: skips_empty_rows may have to be True"
    if not how.has_quotes and any(name.startswith('"') for name in names):
        return "; has_quotes may have to be True"
    has_none = not how.has_returns and not how.allows_returns
    # (a return after a quote leaves the quotes in the name)
    if has_none and names[-1].endswith("\r") and names[-1][:-1].strip('"') in missing:
        return "; allows_returns may have to be True"
    if not how.allows_blanks and {name.strip(" \t") for name in names}.issuperset(missing):
        return "; allows_blanks may have to be True"
    separator = b"," if how.separator is None else how.separator
    byte = bytes_of(separator) if isinstance(separator, str) else bytes(memoryview(separator))
    others = [chr(it) for it in _SEPARATORS if chr(it) in names[0] and it != byte[0]]
    return f"; separator may have to be {others[0]!r}" if others and len(names) == 1 else ""


def ask_names(columns: Columns, names: list[str], how: How) -> None:
    """Raises ValueError unless a header has each column, and has it once."""
    counts = Counter(names)
    missing = [name for name in columns if name not in counts]
    if missing:
        raise ValueError(f"the header has no column {_listed(missing)}: it has {_listed(names)}"
                         f"{_hint(names, missing, how)}")
    for name in columns:
        if counts[name] > 1:
            places = [str(k + 1) for k, it in enumerate(names) if it == name]
            more = ["more"] if len(places) > _LISTED else []
            raise ValueError(f"the header has {_shown(name)} as its columns"
                             f" {' and '.join(places[:_LISTED] + more)}: no name chooses one of"
                             f" {_listed(names)}")
