"""Columns of files of any size, read in blocks."""

from __future__ import annotations

import io
import os
import stat
from collections import deque
from contextlib import suppress
from typing import TYPE_CHECKING, Any, Callable, Iterator, Optional, Protocol, Union

from ._core import _keep_memory, _parse_part
from ._format import Format, _integer, bytes_of

if TYPE_CHECKING:
    from array import array
    from concurrent.futures import Future

    from ._core import NumberType
    from ._pool import Pool

# The largest memory that the allocator learns from.
_LARGE = 31 << 20
# A piece stays in a processor's cache from its reading to its parsing. In front of it there is room
# for the row that began before.
_PIECE = 1 << 18
_FRONT = 1 << 12
# No block has more bytes than this: a file may make room for all that it is asked for.
_MOST = 1 << 30
# This many blocks are read before they are asked for.
_AHEAD = 3
# A block of a file, or a piece of one.
Block = Union[bytes, memoryview]


class File(Protocol):
    """A file that was opened with "rb", also one of gzip.open."""

    def read(self, size: int, /) -> Optional[bytes]:
        """The next bytes, at most `size` of them, or all for -1."""


def _one_or_more(name: str, value: object) -> int:
    """An argument that counts things, if it is 1 or more."""
    number = _integer(name, value)
    if number < 1:
        raise ValueError(f"{name} has to be 1 or more, and not {number}")
    return number


def ask_progress(progress: object) -> None:
    """Asks that what is called after each block can be called."""
    if progress is not None and not callable(progress):
        kind = type(progress).__name__
        raise TypeError(f"progress has to be a function or None, and not {kind}")


def too_long(what: str, size: int, quote: Optional[int] = None) -> ValueError:
    """The exception for what has more than `size` bytes. A quote that isn't closed may be why."""
    reason = "; size" if quote is None else (f": the quote at byte {quote} may lack the one that"
                                             " closes it, or size")
    return ValueError(f"{what} has more than {size} bytes{reason} may have to be larger")


def _block(file: File, size: int) -> bytes:
    """The next bytes of a file, or none at its end."""
    if not hasattr(file, "read"):
        hint = ""
        if isinstance(file, (bytes, bytearray, memoryview)):
            hint = ": parse_table and parse_column read what is in memory"
        elif isinstance(file, (str, os.PathLike)):
            hint = ": open(path, \"rb\") opens one"
        raise TypeError(f"file has to be one opened by \"rb\", and not {type(file).__name__}{hint}")
    block = _some(file.read(size))
    if isinstance(block, bytes):
        return block
    raise TypeError(f"file has to give bytes, and not {type(block).__name__}: open it with \"rb\"")


def _some(read: Any) -> Any:
    """What a file has given, if it has given anything."""
    if read is None:
        raise BlockingIOError("file has no bytes now: it has to be one whose read waits")
    return read


def keep_memory(size: int) -> None:
    """Makes the allocator keep about `size` bytes of freed memory for the next arrays and blocks.

    Otherwise it returns them to the system, which clears them again each time. It keeps as much as
    was once freed at a time, up to a bound.
    """
    _keep_memory(min(size, _LARGE))


def _size_left(file: Any) -> int:
    """How many bytes are left in a file, or 0 if that isn't known."""
    with suppress(Exception):  # (of a file of one's own, whose other methods may do anything)
        if type(file) is io.BytesIO:
            place = file.tell()
            size = file.seek(0, os.SEEK_END)
            return max(size - file.seek(place), 0)
        status = os.fstat(file.fileno())
        if stat.S_ISREG(status.st_mode):
            return max(status.st_size - int(file.tell()), 0)
    return 0


def _read_at(descriptor: int, size: int, place: int) -> bytes:
    """The bytes of a file from a place on: `size` of them, or those up to its end.

    A read makes room for all that it asks for, so it asks for little more than the file has.
    """
    found = b""
    while len(found) < size:
        start = place + len(found)
        likely = max(os.fstat(descriptor).st_size - start, _PIECE)
        more = os.pread(descriptor, min(size - len(found), likely), start)
        if not more:
            break
        found += more
    return found


class ReadAhead:
    """A regular file whose blocks of `size` bytes a pool reads before they are asked for."""

    def __init__(self, file: Any, size: int, pool: Pool) -> None:
        self.descriptor, self.place = file.fileno(), file.tell()
        self.size, self.pool = min(size, _MOST), pool
        self.waiting: deque[Future[bytes]] = deque()
        self.is_ended = False

    def read(self, _: int, /) -> bytes:
        """The next block, of fewer bytes at the file's end, and none after it."""
        while len(self.waiting) < _AHEAD and not self.is_ended:
            self.waiting.append(
                self.pool.submit(_read_at, self.descriptor, self.size, self.place))
            self.place += self.size
        block = self.waiting.popleft().result() if self.waiting else b""
        if len(block) < self.size:
            self.is_ended = True
            self.waiting.clear()
        return block


class Blocks:
    """The blocks of a file, and after them an empty one.

    With `by_pieces`, a block of one of Python's own files comes by pieces, each in the memory of
    the one before. `behind` says of the last piece about how many bytes of its block follow, or 0
    for none.
    """

    def __init__(
        self,
        file: File,
        size: int,
        progress: Optional[Callable[[int], object]] = None,
        by_pieces: bool = False,
    ) -> None:
        self.file: Any = file
        size = min(size, _MOST)
        self.size, self.progress, self.piece, self.behind = size, progress, size, 0
        self.left = -1  # (how many bytes the file has left, or less than 0 if that isn't known)
        self.room: Optional[memoryview] = None
        if by_pieces and type(file) in (io.BufferedReader, io.BytesIO) and not vars(file):
            self.left = _size_left(file) or -1
            if not 0 < self.left <= _PIECE:  # (a file of one piece needs no room)
                self.piece = min(size, _PIECE)
                self.room = memoryview(bytearray(_FRONT + self.piece))

    def __iter__(self) -> Iterator[Block]:
        keep_memory(16 * self.size)
        count, wanted = 0, self.piece
        while piece := self._piece(wanted):
            count, self.left = count + len(piece), self.left - len(piece)
            behind = min(self.size - count, self.left if self.left >= 0 else self.size)
            self.behind = behind if len(piece) == wanted else 0
            yield piece
            if not self.behind:
                self._tell(count)
                count = 0
            wanted = min(self.piece, self.size - count)
        self.behind = 0
        if count:
            yield b""  # (the end of a block of which no more bytes come)
            self._tell(count)
        yield b""

    def _piece(self, wanted: int) -> Block:
        """The next piece of the file, or none at its end."""
        if self.room is None:
            return _block(self.file, wanted)
        count = self.file.readinto(self.room[_FRONT:_FRONT + wanted])
        return self.room[_FRONT:_FRONT + _some(count)]

    def joined(self, rest: bytearray, piece: Block, stop: int) -> Optional[memoryview]:
        """The rest of what was read before a piece, and the piece up to a place, or None if there
        is no room for the rest in front of the piece."""
        if self.room is None or isinstance(piece, bytes) or len(rest) > _FRONT:
            return None
        start = _FRONT - len(rest)
        self.room[start:_FRONT] = rest
        return self.room[start:_FRONT + stop]

    def _tell(self, count: int) -> None:
        """Tells of a block of `count` bytes."""
        if self.progress:
            self.progress(count)


def iter_column(
    file: File,
    type: NumberType = "i64",
    separator: Union[bytes, str] = b"\n",
    format: Optional[Format] = None,
    size: int = 1 << 20,
    progress: Optional[Callable[[int], object]] = None,
) -> Iterator[array[int]]:
    """Yield the numbers of a file's fields, an array for each block of about `size` bytes.

    A field that a block cuts is read with the next one. ParseError counts `field`, `start` and
    `place` over the whole file; the arrays before it have been yielded. ValueError is raised if
    a block ends more than `size` bytes into a field, so no more than two blocks are held.
    `progress`, such as `update` of a tqdm bar, is called after each block with its number of bytes;
    if it raises, reading ends.
    """
    size = _one_or_more("size", size)
    ask_progress(progress)
    parted = bytes_of(separator) if isinstance(separator, str) else separator
    _parse_part(b"", type, parted, format, 0, 0)  # (this refuses wrong arguments)
    left, field, start = bytearray(), 0, 0
    for block in map(bytes, Blocks(file, size, progress)):
        stop = block.rfind(parted) + 1
        if block and not stop:
            left += block
            if len(left) > size:
                raise too_long(f"the field at byte {start}", size)
            continue
        text = bytes(left) + block[:stop] if left else memoryview(block)[:stop]
        numbers = _parse_part(text, type, parted, format, field, start)
        if numbers:
            yield numbers
        left, field, start = bytearray(block[stop:]), field + len(numbers), start + len(text)
