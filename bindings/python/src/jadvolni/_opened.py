"""How an opened file is read: its rows block by block, by one thread or by a pool of them.

A path that several threads read: `ReadAhead` reads blocks in the pool, `whole_rows` cuts them where
rows end, `rows_in_threads` has them parsed, in order, and `Rows.append` has their numbers copied.
"""

from __future__ import annotations

import sys
from typing import TYPE_CHECKING, Any, Callable, Iterator, Mapping, NamedTuple, Optional

from ._blocks import Blocks, _one_or_more
from ._faults import AtFault, Part, noting
from ._files import Texts, whole_rows
from ._header import read_header, with_header
from ._reader import How, Reader
from ._rows import Rows
from ._table import Table
from ._threads import rows_in_threads

if TYPE_CHECKING:
    from ._blocks import File
    from ._pool import Pool
    from ._reader import Columns

# No call starts more threads than this, whatever it is asked for: each takes memory.
_MOST_THREADS = 1024


class Asked(NamedTuple):
    """The arguments of a call, without its text or file."""

    columns: Columns
    how: How
    at: AtFault
    header: bool
    threads: int
    out: Optional[Mapping[str, Any]] = None
    size: int = 0
    progress: Optional[Callable[[int], object]] = None

    def reader(self, names: Optional[list[str]] = None) -> Reader:
        """How the rows are read, after a header with these names, or without one."""
        return Reader(self.columns, self.how, self.at, names)


def thread_count(threads: object) -> int:
    """How many threads a call has, if it is asked for 1 or more."""
    return min(_one_or_more("threads", threads), _MOST_THREADS)


def file_rows(
    file: File, asked: Asked, size: int, threads: int, most: int
) -> tuple[Reader, Iterator[Texts], int]:
    """How a file is read, its rows by blocks of `size` bytes, and how many bytes its header has.

    A row has at most `most` bytes. `progress` is called here for one thread, for more elsewhere.
    """
    asked = asked._replace(how=with_header(asked.how, asked.header))
    is_alone = threads == 1
    blocks = Blocks(file, size, asked.progress if is_alone else None, by_pieces=is_alone)
    if not asked.header:
        reader = asked.reader()
        return reader, whole_rows(blocks, blocks, reader, most, Part()), 0
    with noting(asked.at.source):
        names, pieces, before = read_header(iter(blocks), asked.how, most)
        reader = asked.reader(names)
    return reader, whole_rows(pieces, blocks, reader, most, before), before.start


def told_rows(
    asked: Asked, reader: Reader, blocks: Iterator[Texts], start: int, rows: int, pool: Pool
) -> Iterator[tuple[list[Rows], int]]:
    """The rows of each block, read by a pool, after a header of `start` bytes, with progress."""
    if asked.progress and start:
        asked.progress(start)
    for found, block in rows_in_threads(reader, blocks, rows, thread_count(asked.threads), pool):
        yield found, block
        if asked.progress and block:
            asked.progress(block)


def read_by_pool(file: File, asked: Asked, size: int, left: int, pool: Pool) -> Table:
    """The rows of a file of about `left` bytes, whose blocks a pool parses."""
    reader, blocks, start = file_rows(file, asked, size, thread_count(asked.threads), sys.maxsize)
    rows, left = Rows(reader), left - start
    for found, block in told_rows(asked, reader, blocks, start, sys.maxsize, pool):
        left -= block
        for more in found:
            rows.append(more, left, pool)
    rows.finish()
    return rows.table()
