"""The rows of a file, block by block."""

from __future__ import annotations

from typing import Iterable, Iterator, NamedTuple, Optional

from ._blocks import Block, Blocks, too_long
from ._core import _row_ends
from ._faults import Fault, Part
from ._reader import Reader
from ._rows import Rows


class Texts(NamedTuple):
    """The whole rows that end in a block or a piece of one: the one that began before it, then the
    others.

    `block` is its size in bytes. It is 0 for what follows the last block. `behind` says about how
    many bytes of the block follow, or 0 for none.
    """

    parts: list[tuple[Block, Part]]
    block: int = 0
    behind: int = 0


class _Rest:
    """The unfinished row at the end of the blocks so far, and whether it ends within quotes."""

    def __init__(self, blocks: Blocks, reader: Reader, size: int, before: Part) -> None:
        self.blocks, self.reader, self.size = blocks, reader, size
        self.start, self.line = before.start, before.line
        self.bytes, self.is_within = bytearray(), False

    def ends(self, block: Block) -> tuple[int, int]:
        """Where the first and the last row of a block end in it, both 0 if none does."""
        record = self.reader.record
        if not record:
            first, last, self.is_within = _row_ends(block, self.reader.has_quotes, self.is_within)
            return first, last
        first = record - len(self.bytes)
        whole = (len(block) - first) // record
        return (first, first + whole * record) if whole >= 0 else (0, 0)

    def add(self, piece: Block) -> Texts:
        """The rows that end in a piece of a block, or in all of it."""
        first, last = self.ends(piece)
        found = Texts([], len(piece), self.blocks.behind)
        joined = self.blocks.joined(self.bytes, piece, last) if last and self.bytes else None
        if joined:
            found.parts.append(self._part(joined))
            first, self.bytes = last, bytearray()
        elif last and self.bytes:
            self.bytes += piece[:first]
            found.parts.append(self._part(bytes(self.bytes)))
            self.bytes = bytearray()
        else:
            first = 0
        if first < last:
            found.parts.append(self._part(memoryview(piece)[first:last]))
        self.bytes += memoryview(piece)[last:]
        return found

    def _part(self, text: Block) -> tuple[Block, Part]:
        """Whole rows, with how many bytes and lines stand before them."""
        part = Part(self.start, self.line)
        self.start, self.line = self.start + len(text), self.line + self.reader.lines_in(text)
        return text, part

    def last(self) -> Texts:
        """What is left after the last block: a row without a line feed, or nothing."""
        return Texts([(bytes(self.bytes), Part(self.start, self.line))])

    def ask_short(self) -> None:
        """Raises ValueError if the row is too long. It names the quote that may be the reason."""
        if len(self.bytes) <= self.size:
            return
        line, quote = self.bytes.find(b"\n"), None
        if self.reader.has_quotes and not self.reader.record and (line >= 0 or self.is_within):
            quote = self.start + self.bytes.rfind(b'"', 0, line if line >= 0 else None)
        raise too_long(f"the row at byte {self.start}", self.size, quote)


def whole_rows(
    pieces: Iterable[Block], blocks: Blocks, reader: Reader, size: int, before: Part
) -> Iterator[Texts]:
    """The whole rows that end in each piece of a file's blocks, and after the last what is left.

    `before` says what stands before them, such as a header. A block that ends more than `size`
    bytes into a row is a ValueError, so no more than two blocks are held.
    """
    rest = _Rest(blocks, reader, size, before)
    for piece in pieces:
        yield rest.add(piece) if piece else Texts([])
        if not blocks.behind:
            rest.ask_short()
    yield rest.last()


def read_texts(
    reader: Reader, blocks: Iterable[Texts], most: int, row: int, kept: Optional[list[Fault]] = None
) -> Iterator[Rows]:
    """The rows of blocks, of one at a time and at most `most` at once, after `row` others. The last
    may have a fault."""
    rows = Rows(reader, most, row, kept)
    for texts in blocks:
        behind = sum(len(text) for text, _ in texts.parts) + texts.behind
        for text, part in texts.parts:
            place, behind = 0, behind - len(text)
            while True:
                place = rows.read(text, part, place, behind)
                if rows.fault:
                    yield rows
                    return
                if not rows.is_full():
                    break
                yield rows
                rows = Rows(reader, most, rows.end, kept)
        if not texts.behind and rows.end > rows.row:
            yield rows
            rows = Rows(reader, most, rows.end, kept)
