"""Tables read by several threads, with the same rows and the same first fault as by one."""

from __future__ import annotations

from collections import deque
from concurrent.futures import Future
from contextlib import ExitStack, suppress
from itertools import accumulate
from typing import TYPE_CHECKING, Any, Iterable, Iterator, NoReturn

from ._core import _move_bits, _row_count, _row_stops
from ._faults import Fault, Part
from ._files import Texts, read_texts
from ._format import bytes_of
from ._pool import Pool
from ._reader import Reader, pair_of, with_pair
from ._rows import Rows
from ._table import Table
from ._texts import Room

if TYPE_CHECKING:
    from ._core import Text

# Where rows are read again, for their faults, this many are read at once.
_FEW = 1024


def raise_changed() -> NoReturn:
    """Raises RuntimeError: a text that was read twice gave different rows."""
    raise RuntimeError("the text was changed while it was read")


# ---- a text in memory, whose lines say how much room there has to be

def _until_end(held: ExitStack, view: memoryview) -> memoryview:
    """A view that is released in the end. Where a second interruption lets no thread be waited for,
    one that reads it still has it, and that isn't what is raised."""
    def release() -> None:
        with suppress(BufferError):
            view.release()

    held.callback(release)
    return view


def _room_behind(
    reader: Reader, arrays: Table, row: int, rows: int, held: ExitStack
) -> dict[str, Any]:
    """Room for `rows` rows after `row` others. Its bits are new: both may have bits in one byte."""
    room = {}
    for name, column in reader.read.items():
        numbers = _until_end(held, memoryview(pair_of(arrays[name])[0])[row:row + rows])
        bits = reader.bits(rows) if column.may_miss else None
        room[name] = with_pair(arrays[name], numbers, bits)
        if isinstance(room[name], Room):
            room[name] = room[name]._replace(data=bytearray())
    return room


def _join(values: Any, parts: list[Any], lines: list[int], counts: list[int]) -> None:
    """Closes the gaps between the rows of parts, each of which has room for all its lines."""
    numbers, bits = pair_of(values)
    line = row = 0
    with memoryview(numbers) as places:
        for part, room, count in zip(parts, lines, counts):
            if row != line:
                places[row:row + count] = places[line:line + count]
            if bits is not None:
                _move_bits(bits, row, part.bits, count)
            if isinstance(values, Room):
                values.data.extend(part.data)
            line, row = line + room, row + count


def parse_in_threads(
    reader: Reader, text: Text, arrays: Table, room: int, threads: int, before: Part
) -> tuple[int, int]:
    """Reads the parts of a text in several threads, into arrays with room for the rows. Returns
    how many rows there are, and how many bad ones were skipped."""
    reader.parse(text, 0, reader.targets(arrays), 0, 0)  # (this refuses wrong arguments)
    # The pool comes last, so that its threads have ended when the memory that they use is let go.
    with ExitStack() as held, Pool(threads) as pool:
        whole = held.enter_context(memoryview(bytes_of(text) if isinstance(text, str) else text))
        parts = min(threads, len(whole))
        stops = _row_stops(whole, parts, reader.has_quotes, reader.record)
        texts = [_until_end(held, whole[start:stop]) for start, stop in zip([0, *stops], stops)]
        lines = pool.map(lambda it: _row_count(it, reader.record), texts)
        if sum(lines) > room:
            raise_changed()
        rooms = [_room_behind(reader, arrays, row, rows, held)
                 for row, rows in zip(accumulate(lines, initial=0), lines)]

        def rows_of(part: int) -> Rows:
            """The rows of a part, or those up to a fault."""
            rows = Rows.of(reader, Table(rooms[part]), lines[part], [])
            if rows.read(texts[part], Part()) != len(texts[part]) and not rows.fault:
                raise_changed()
            return rows

        found = pool.map(rows_of, range(len(texts)))
        _tell_parts(reader, texts, found, before)
    counts = [rows.count for rows in found]
    for name, values in arrays.items():
        _join(values, [room[name] for room in rooms], lines, counts)
    return sum(counts), sum(rows.bad for rows in found)


def _tell_parts(
    reader: Reader, texts: list[memoryview], found: list[Rows], before: Part
) -> None:
    """Reports the faults of parts of a text, or raises the first, now that rows are counted."""
    row, start, line = 0, before.start, before.line
    for text, rows in zip(texts, found):
        if rows.fault:
            raise reader.error(rows.fault, row, start, line)
        faults = [fault.behind(0, start, line) for fault in rows.kept or ()]
        tell_kept(reader, Texts([(text, Part(start, line))]), rows.bad, faults, row)
        row, start, line = row + rows.end, start + len(text), line + reader.lines_in(text)


def tell_kept(reader: Reader, texts: Texts, bad: int, kept: list[Fault], row: int) -> None:
    """Reports the bad rows of texts that follow `row` rows. If not all were kept, the texts are
    read again."""
    tell = reader.at_fault.tell
    if not tell:
        return
    if len(kept) == bad:
        for fault in kept:
            tell(reader.error(fault, row))
        return
    for rows in read_texts(reader, [texts], _FEW, row):
        pass


# ---- a file, whose blocks are read one by one

def _read_part(reader: Reader, texts: Texts, most: int) -> tuple[list[Rows], list[Fault]]:
    """The rows of texts, at most `most` at once, and the first of the bad rows."""
    kept: list[Fault] = []
    return list(read_texts(reader, [texts], most, 0, kept)), kept


def rows_in_threads(
    reader: Reader, blocks: Iterable[Texts], most: int, threads: int, pool: Pool
) -> Iterator[tuple[list[Rows], int]]:
    """The rows of each block of a file, in the file's order, and the block's size in bytes.

    While some threads parse rows, this one asks for the next block. (Those of a path are read
    ahead, by the pool: `ReadAhead`.)
    """
    row, left, failed = 0, iter(blocks), None
    waiting: deque[tuple[Texts, Future[tuple[list[Rows], list[Fault]]]]] = deque()
    while True:
        try:
            texts = next(left, None) if failed is None else None
        except Exception as error:  # (what was read before it comes first)
            texts, failed = None, error
        if texts:
            waiting.append((texts, pool.submit(_read_part, reader, texts, most)))
        if texts and len(waiting) <= threads:
            continue
        if not waiting:
            break
        texts, answer = waiting.popleft()
        found, kept = answer.result()
        tell_kept(reader, texts, sum(rows.bad for rows in found), kept, row)
        yield found, texts.block
        if found:
            found[-1].raise_fault(row)
            row += found[-1].end
    try:
        if failed:
            raise failed
    finally:
        failed = None  # (it has this frame, which would keep it, and with it the last blocks)
