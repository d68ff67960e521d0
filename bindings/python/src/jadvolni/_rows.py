"""The rows of texts, one after another, in arrays that grow with them."""

from __future__ import annotations

import sys
from typing import TYPE_CHECKING, Any, Optional

from ._arrays import copy_front, cut, grown
from ._core import _move_bits, _text_size
from ._faults import Fault, Part
from ._reader import Reader, pair_of, with_pair
from ._table import Table
from ._texts import Room, TextColumn, offsets_of

if TYPE_CHECKING:
    from concurrent.futures import Future

    from ._core import Text
    from ._pool import Pool

# The first room is for this many rows, which tell how much a text needs, and any room has this many
# rows to spare.
_FIRST = 1024
_FEW = 64
# A guess is at most this many times the rows so far: those to come may be longer. Room that isn't
# written takes no memory, except in the module array, which clears it.
_FOLD = 1 << 14
_FOLD_OF_ARRAY = 32
# So many numbers are copied by another thread: a call of the pool takes longer than fewer.
_MANY = 1 << 12


class Rows:
    """Rows that were read: at most `most`, after `row` others.

    Bad rows are reported as they come. If `kept` is a list, the first of them are kept in it
    instead: then it isn't known yet how many rows stand before them.
    """

    def __init__(
        self,
        reader: Reader,
        most: int = sys.maxsize,
        row: int = 0,
        kept: Optional[list[Fault]] = None,
    ) -> None:
        self.reader, self.most, self.row, self.kept = reader, most, row, kept
        self.count = self.bad = self.room = self.size = 0
        self.fault: Optional[Fault] = None
        self.arrays = Table()
        self.targets: tuple[Optional[tuple[Any, ...]], ...] = ()
        # Numbers that threads copy into the arrays.
        self.copies: list[Future[None]] = []

    @classmethod
    def of(
        cls, reader: Reader, arrays: Table, most: int, kept: Optional[list[Fault]] = None
    ) -> Rows:
        """No rows yet, with arrays that have room for `most` of them."""
        rows = cls(reader, most, kept=kept)
        rows.arrays, rows.targets, rows.room = arrays, reader.targets(arrays), most
        return rows

    @property
    def end(self) -> int:
        """How many rows there were, good and bad, with those before them."""
        return self.row + self.count + self.bad

    def is_full(self) -> bool:
        """Whether there are as many rows as there may be."""
        return self.count == self.most

    def read(self, text: Text, part: Part, place: int = 0, behind: int = 0) -> int:
        """Reads a text from a place on. Returns where it stopped: at the end, when full, or at a
        fault.

        About `behind` more bytes follow the text, whose size whoever receives an error may change.
        """
        while True:
            rows = self._make_room(max(_text_size(text) - place, 0), behind)
            length, is_end = self._parse(text, place, part, rows)
            place += length
            if is_end or self.is_full():
                return place

    def _parse(self, text: Text, place: int, part: Part, rows: int) -> tuple[int, bool]:
        """Reads at most `rows` rows. Returns their length in bytes, and whether that is all."""
        most_bad = self.reader.most_bad - len(self.kept) if self.kept else self.reader.most_bad
        count, length, bad, faults, is_end = self.reader.parse(
            text, place, self.targets, self.count, rows, most_bad)
        if faults:
            self._tell([self.reader.fault(it, text, part, self.end) for it in faults])
        self.count, self.bad, self.size = self.count + count, self.bad + bad, self.size + length
        if self.size:
            self.reader.rate = self.count / self.size
            self.reader.seen = max(self.count, self.reader.seen)
        return length, is_end

    def _tell(self, faults: list[Fault]) -> None:
        """Reports faults, or keeps them."""
        tell = self.reader.at_fault.tell
        if not tell:
            self.fault = faults[0]
        elif self.kept is None:
            for fault in faults:
                tell(self.reader.error(fault))
        else:
            self.kept += faults

    def raise_fault(self, row: int = 0) -> None:
        """Raises the fault that has ended the reading, if one has, counted with `row` more rows."""
        if self.fault:
            raise self.reader.error(self.fault, row)

    def _guess(self, size: int) -> int:
        """How many rows `size` bytes may have, going by those before them, and some to spare."""
        most = self.reader.seen * (_FOLD if self.reader.numpy else _FOLD_OF_ARRAY)
        return min(int(size * self.reader.rate * 1.125), most) + _FEW

    def _make_room(self, size: int, behind: int) -> int:
        """Makes room for rows of `size` bytes, for some or all, going by those before them. Returns
        for how many: places of texts take memory for each."""
        most = min(size // self.reader.least + 1, self.most - self.count)
        wanted = min(most, self._guess(size) if self.reader.rate else _FIRST)
        if wanted > self.room - self.count or self.room == self.count < self.most:
            self.grow(max(wanted, self._guess(size + behind) if behind else 0, self.count // 2))
        return wanted

    def grow(self, rows: int) -> None:
        """Makes room for `rows` more rows."""
        self.room = min(self.count + rows + 7 & ~7, self.most)
        if self.count:
            self.arrays = Table({name: self._grown(it) for name, it in self.arrays.items()})
        else:
            self.arrays = self.reader.room(self.room)
        self.targets = self.reader.targets(self.arrays)

    def _grown(self, values: Any) -> Any:
        """A column's arrays, grown to the room that there is now."""
        numbers, bits = pair_of(values)
        more = grown(self.reader.numpy, numbers, self.room, self.count)
        if bits is not None:
            size, kept = (self.room + 7) // 8, (self.count + 7) // 8
            bits = grown(self.reader.numpy, bits, size, kept)
        return with_pair(values, more, bits)

    def append(self, other: Rows, behind: int, pool: Pool) -> None:
        """Appends the rows of another, whose numbers the pool copies if they are many. About
        `behind` more bytes follow them."""
        if self.room - self.count < other.count or not self.room:
            self.finish()
            self.grow(max(other.count, self._guess(behind), self.count // 2))
        for name, values in other.arrays.items():
            (numbers, bits), (to, to_bits) = pair_of(values), pair_of(self.arrays[name])
            if other.count < _MANY:
                copy_front(numbers, other.count, to, self.count)
            else:
                self.copies.append(pool.submit(copy_front, numbers, other.count, to, self.count))
            if bits is not None:
                _move_bits(to_bits, self.count, bits, other.count)
            if isinstance(values, Room):
                self.arrays[name].data.extend(values.data)
        self.count, self.bad = self.count + other.count, self.bad + other.bad

    def finish(self) -> None:
        """Waits until all numbers are where they belong."""
        for copy in self.copies:
            copy.result()
        self.copies = []

    def table(self, before: int = 0) -> Table:
        """The rows as a table of its own arrays. `before` rows stand in tables before it."""
        if not self.room:
            self.grow(0)
        return self._counted(
            {name: _front(it, self.count, before) for name, it in self.arrays.items()})

    def fronts(self) -> Table:
        """The rows as a table over the caller's arrays."""
        return self._counted({name: _view(it, self.count) for name, it in self.arrays.items()})

    def _counted(self, columns: dict[str, Any]) -> Table:
        """Columns as a table, which counts the bad rows that were skipped."""
        table = Table(columns)
        if self.bad:
            table.bad_rows = self.bad
        return table


def _view(values: Any, count: int) -> Any:
    """The first `count` rows of a column in the caller's arrays, as views."""
    if isinstance(values, Room):
        return _front(values, count)
    if isinstance(values, tuple):
        return with_pair(values, _view(values[0], count), _view(values[1], (count + 7) // 8))
    if not (hasattr(values, "__len__") and hasattr(values, "__getitem__")):
        values = memoryview(values)  # (of an object that has nothing but a buffer)
    return values if len(values) == count else values[:count]


def _front(values: Any, count: int, before: int = 0) -> Any:
    """The first `count` rows of a column, whose arrays are cut there, after `before` others."""
    numbers, bits = pair_of(values)
    numbers, bits = cut(numbers, count), None if bits is None else cut(bits, (count + 7) // 8)
    if isinstance(values, Room):
        return TextColumn(values.data, offsets_of(numbers), bits, values.encoding, before)
    return with_pair(values, numbers, bits)
