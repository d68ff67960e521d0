"""Tables: the rows of a text or a file, with an array for each column."""

from __future__ import annotations

import mmap as memory_map
import os
import sys
from contextlib import nullcontext, suppress
from typing import (TYPE_CHECKING, Any, BinaryIO, Callable, ContextManager, Iterable, Iterator,
                    Mapping, Optional, Union)

from ._blocks import (Block, Blocks, File, ReadAhead, _block, _one_or_more, _size_left,
                      ask_progress, keep_memory)
from ._core import _row_count, _text_size
from ._faults import Errors, OnError, Part, at_fault, noting
from ._files import read_texts
from ._format import bytes_of
from ._header import read_header, with_header
from ._opened import Asked, file_rows, read_by_pool, thread_count, told_rows
from ._pool import Pool
from ._reader import How, Reader, ask_type
from ._rows import Rows
from ._table import Table
from ._texts import Text as TextKind
from ._threads import parse_in_threads, raise_changed

if TYPE_CHECKING:
    from ._core import Text
    from ._reader import Columns


def _writable_size(values: Any) -> int:
    """How many items a writable array has, or -1 if this is none."""
    with suppress(TypeError, ValueError, BufferError), memoryview(values) as view:
        return -1 if view.readonly or not view.c_contiguous else len(view)
    return -1


def _room_of(reader: Reader, out: Mapping[str, Any], rows: int) -> Table:
    """The caller's arrays, which need room for `rows` rows, and new ones for texts."""
    ask_type("out", out, Mapping, "a dict or None")
    numbers = {name: it for name, it in reader.read.items() if not isinstance(it.type, TextKind)}
    for name, column in numbers.items():
        given: Any = out.get(name)
        is_pair = isinstance(given, tuple) and len(given) == 2
        sizes = [_writable_size(it) for it in (given if is_pair else (given,))]
        if is_pair != bool(column.may_miss) or -1 in sizes:
            wanted = "a Sparse of arrays" if column.may_miss else "an array"
            raise ValueError(f"out has to have {wanted} to write to for the column {name!r}")
        if any(size < needed for size, needed in zip(sizes, (rows, (rows + 7) // 8))):
            raise ValueError(f"out has to have room for the {rows} rows of the text in the column"
                             f" {name!r}")
    return Table({name: out[name] if name in numbers else reader.room_of(column, rows)
                  for name, column in reader.read.items()})


def _parse(
    reader: Reader, text: Text, out: Optional[Mapping[str, Any]], threads: int, before: Part
) -> Table:
    """The rows of a text; `before` says what stands before it, a header or nothing."""
    keep_memory(2 * _text_size(text))
    if threads == 1 and out is None:
        found = Rows(reader)
        found.read(text, before)
        found.raise_fault()
        return found.table()
    rows = _row_count(text, reader.record)
    arrays = reader.room(rows) if out is None else _room_of(reader, out, rows)
    found = Rows.of(reader, arrays, rows)
    if threads > 1:
        found.count, found.bad = parse_in_threads(reader, text, arrays, rows, threads, before)
    else:
        stop = found.read(text, before)
        found.raise_fault()
        if stop != _text_size(text):
            raise_changed()
    return found.table() if out is None else found.fronts()


def _parse_text(text: Text, asked: Asked) -> Table:
    """The rows of a text, with a header or without one."""
    threads = thread_count(asked.threads)
    asked = asked._replace(how=with_header(asked.how, asked.header))
    if not asked.header:
        return _parse(asked.reader(), text, asked.out, threads, Part())
    _text_size(text)  # (this refuses what is no text)
    with memoryview(bytes_of(text) if isinstance(text, str) else text) as whole:
        with noting(asked.at.source):
            names, _, before = read_header(_parts(whole), asked.how, sys.maxsize)
            reader = asked.reader(names)
        with whole[before.start:] as rest:
            return _parse(reader, rest, asked.out, threads, before)


def parse_table(
    text: Text,
    columns: Columns,
    separator: Optional[Text] = None,
    has_returns: bool = False,
    has_quotes: bool = False,
    allows_blanks: bool = False,
    skips_empty_rows: bool = False,
    missing: Text = b"",
    widths: Optional[Iterable[int]] = None,
    is_records: bool = False,
    out: Optional[Mapping[str, Any]] = None,
    threads: int = 1,
    *,
    allows_returns: bool = False,
    header: bool = False,
    on_error: OnError = "raise",
    errors: Errors = None,
) -> Table:
    """Parse the rows of a text, and return them as a Table: a dict with an array for each column.

    text: a str, or contiguous bytes. Rows end with a line feed, which the last may lack.
    columns: a dict of the cells of a row, in their order. It maps each name to a type such as
    "i64", a Fixed, a Text, a Column, or None to skip the cell, whose quotes must be in place if the
    table has any. Numbers become NumPy arrays if NumPy is installed, otherwise arrays of the module
    array. Texts become a TextColumn.
    separator: the byte between cells, by default a comma. A row has one cell more than separators.
    has_returns: the line feed that ends a row follows a carriage return. Any other carriage return
    belongs to its cell, even at the end of the text, and by default each does.
    allows_returns: the line feed that ends a row may follow a carriage return, so rows may end
    either way. Any other carriage return belongs to its cell, so none alone ends a row.
    has_quotes: a cell may be enclosed in '"', and may then contain separators and line feeds. Its
    width, if it has one, includes the quotes. Don't combine this with a quote as the separator:
    after an odd number of them in a row a line feed doesn't end it.
    allows_blanks: spaces and tabs may surround a number, or `missing` in its place: within its
    quotes if it has them, and not in a Text.
    skips_empty_rows: a row without a byte before its end doesn't count as a row, and is no missing
    cell. With has_returns it may end with a line feed alone. A row of blanks isn't empty. By
    default an empty row has one empty cell, or with widths those of width 0 before all others.
    missing: what stands for a missing number or text, by default an empty cell, and "" too if the
    table has quotes. It is all that the cell holds, and counts only in a Column with may_miss. A
    column of numbers then is a Sparse.
    widths: the width of each cell in bytes. Cells then have no separator. A line that ends before a
    cell is complete, as one without its last blanks, has too few cells: pad such lines, as by
    line.ljust(sum(widths)).
    is_records: rows have as many bytes as the widths together, at least one, and no line feed: one
    at the end of the text belongs to a further row.
    out: a dict of writable arrays with room for all rows, one for each column of numbers, and a
    Sparse of arrays for a Column with may_miss. The table has them, up to the last row; after that
    they may hold anything.
    threads: how many threads read the text, each a part of it. The rows and errors are the same for
    any number. After an error, `out` may hold anything.
    header: the first line, or the first of the records, names the columns. `columns` then selects
    by name, in any order, and other columns aren't read. A byte order mark may stand before the
    header, and so may empty rows that are skipped. The header's cells have the widths too, and with
    allows_blanks, its names may have blanks around them. Its quotes and its return aren't checked:
    a quote that never closes is a part of its name. Without a header a byte order mark belongs to
    the first cell.
    on_error: "raise" raises the error of the first bad row. "skip" skips bad rows, and stores the
    others without gaps; the table's `bad_rows` counts those skipped. If the table has quotes, a
    stray one takes the lines up to the next stray one, or to the end of the text, into its row: if
    that is bad, they are all skipped, as one row.
    errors: with "skip", a list to which the ParseError of each bad row is appended, or a function
    that is called with it, in the order of the rows. If it raises, reading ends.

    ParseError is raised for the first bad cell in reading order, or for a row with too few or too
    many. `row`, `line` and `column` count from 0, and `name` is the column's. `row` counts good and
    bad rows. `place` is the offset of the wrong byte, `row_start` and `row_stop` those of its row
    with its line end, and `text` has the cell's first bytes, at most 40, and none if a cell or the
    return is missing. Offsets count bytes from 0, over the whole text. A header is no row, but its
    lines and bytes count. The message counts lines, of records rows, and columns from 1, as an
    editor does, and bytes from 0.

    ValueError is raised if the header lacks a column of `columns`, or has it twice, and if the
    arrays of `out` don't fit. ValueError or TypeError is raised for arguments that are wrong, and
    FormatError for a format that breaks a rule.
    """
    how = How(separator, has_returns, has_quotes, allows_blanks, skips_empty_rows, missing, widths,
              is_records, allows_returns)
    asked = Asked(columns, how, at_fault(on_error, errors), header, threads, out)
    return _parse_text(text, asked)


def _parts(text: memoryview) -> Iterator[Block]:
    """A text in parts that get larger, and after the last of them an empty one."""
    start, size = 0, 1 << 16
    while start < len(text):
        yield bytes(text[start:start + size])
        start, size = start + size, 2 * size
    yield b""


def read_table(
    file: Union[str, os.PathLike[str], File],
    columns: Columns,
    separator: Optional[Text] = None,
    has_returns: bool = False,
    has_quotes: bool = False,
    allows_blanks: bool = False,
    skips_empty_rows: bool = False,
    missing: Text = b"",
    widths: Optional[Iterable[int]] = None,
    is_records: bool = False,
    out: Optional[Mapping[str, Any]] = None,
    threads: Optional[int] = None,
    *,
    size: int = 1 << 20,
    progress: Optional[Callable[[int], object]] = None,
    mmap: bool = False,
    allows_returns: bool = False,
    header: bool = False,
    on_error: OnError = "raise",
    errors: Errors = None,
) -> Table:
    """Read the rows of a file, and return them as a Table.

    file: a path, or a file opened with "rb", also one of gzip.open.
    size: the file is read in blocks of this many bytes, 1 or more.
    threads: how many threads parse the blocks. With None, a path is read by one thread for each
    core that this process may use, and no more than the file has whole blocks. One thread then
    reads all else: an opened file, a pipe, and a path with `mmap` or `out`. The rows and errors are
    the same for any number.
    progress: a function that is called after each block with its size in bytes, such as `update` of
    a tqdm bar. If it raises, reading ends.
    mmap: map the file at this path to memory, which saves a copy of it. Use it only if no other
    program changes the file meanwhile: if the file is truncated, a signal ends this process.

    Everything else is as in parse_table. ParseError counts from where reading began, and its
    message begins with the file's name, which another ValueError about a header has as a note. If
    the first row is bad, or the header, the error says whether the file seems to be compressed by
    gzip, a zip archive, or in UTF-16. OSError is raised if the file can't be opened or read, and
    TypeError for `mmap` with an opened file.
    """
    how = How(separator, has_returns, has_quotes, allows_blanks, skips_empty_rows, missing, widths,
              is_records, allows_returns)
    at = at_fault(on_error, errors, _name_of(file))
    ask_progress(progress)
    asked = Asked(columns, how, at, header, 1 if threads is None else threads, out, size, progress)
    if not isinstance(file, (str, os.PathLike)):
        if mmap:
            raise TypeError("file has to be a path where mmap is true")
        return _read_opened(file, asked)
    with open(file, "rb") as opened:
        if mmap:
            with _mapped(opened) as text:
                return _parse_text(text, asked)
        if threads is None and out is None:
            asked = asked._replace(threads=_threads_for(opened, _one_or_more("size", size)))
        return _read_opened(opened, asked, is_own=True)


def _threads_for(file: BinaryIO, size: int) -> int:
    """How many threads read a file in blocks of `size` bytes: one for each core that this process
    may use, and no more than the file has whole blocks. One reads a file of unknown size, such as a
    pipe, and so reports bad rows as they come."""
    return max(min(len(os.sched_getaffinity(0)), _size_left(file) // size), 1)


def _name_of(file: Any) -> Any:
    """The name that messages have for a file: its path, or the name that it has if opened."""
    is_path = isinstance(file, (str, os.PathLike))
    return os.fsdecode(file) if is_path else getattr(file, "name", None)


def _mapped(file: BinaryIO) -> ContextManager[Any]:
    """The bytes of a file: mapped to memory if they can be, otherwise read."""
    with suppress(OSError, ValueError):  # (it is empty, a pipe, or of a file system without maps)
        return memory_map.mmap(file.fileno(), 0, access=memory_map.ACCESS_READ)
    return nullcontext(_block(file, -1))


def _read_opened(file: File, asked: Asked, is_own: bool = False) -> Table:
    """The rows of an opened file. Blocks of one of our own may be read ahead of it."""
    size, threads = _one_or_more("size", asked.size), thread_count(asked.threads)
    if asked.out is not None:  # (all its rows are counted before one is written)
        return _parse_text(b"".join(Blocks(file, size, asked.progress)), asked)
    left = _size_left(file)
    if threads > 1:
        with Pool(threads) as pool:
            ahead = ReadAhead(file, size, pool) if left and is_own else file
            return read_by_pool(ahead, asked, size, left, pool)
    reader, blocks, start = file_rows(file, asked, size, threads, sys.maxsize)
    rows, left = Rows(reader), left - start
    for texts in blocks:
        left -= texts.block
        for text, part in texts.parts:
            rows.read(text, part, behind=max(left, 0))
            rows.raise_fault()
    return rows.table()


def iter_table(
    file: File,
    columns: Columns,
    separator: Optional[Text] = None,
    has_returns: bool = False,
    has_quotes: bool = False,
    allows_blanks: bool = False,
    skips_empty_rows: bool = False,
    missing: Text = b"",
    widths: Optional[Iterable[int]] = None,
    is_records: bool = False,
    rows: int = 100_000,
    size: int = 1 << 20,
    progress: Optional[Callable[[int], object]] = None,
    *,
    threads: int = 1,
    allows_returns: bool = False,
    header: bool = False,
    on_error: OnError = "raise",
    errors: Errors = None,
) -> Iterator[Table]:
    """Read the rows of a file of any size, and yield them as Tables, block by block.

    file: a file opened with "rb", also one of gzip.open.
    rows: the most rows that a table has, 1 or more.
    size: the file is read in blocks of this many bytes, 1 or more. A row that goes on in the next
    block is read with that one.
    threads: how many threads parse the blocks. The rows and errors are the same for any number.
    progress: a function that is called after each block with its size in bytes, such as `update` of
    a tqdm bar. If it raises, reading ends.

    Everything else is as in parse_table. ParseError is raised after the rows before it have been
    yielded, and counts from where reading began, a header's lines and bytes included. ValueError is
    raised if a block ends more than `size` bytes into a row, so no more than two blocks are held,
    or two for each thread: a quote that is never closed raises it even if bad rows are skipped. If
    they are skipped, each table's `bad_rows` counts those of its part of the file, and a table may
    have no row.
    """
    rows, size = _one_or_more("rows", rows), _one_or_more("size", size)
    threads = thread_count(threads)
    how = How(separator, has_returns, has_quotes, allows_blanks, skips_empty_rows, missing, widths,
              is_records, allows_returns)
    at = at_fault(on_error, errors, _name_of(file))
    ask_progress(progress)
    asked = Asked(columns, how, at, header, threads, progress=progress)
    reader, blocks, start = file_rows(file, asked, size, threads, size)
    count = 0
    if threads > 1:
        with Pool(threads) as pool:
            for all_found, _ in told_rows(asked, reader, blocks, start, rows, pool):
                for found in all_found:
                    if found.end > found.row:
                        yield found.table(count)
                        count += found.count
        return
    for found in read_texts(reader, blocks, rows, 0):
        if found.end > found.row:
            yield found.table(count)
            count += found.count
        found.raise_fault()
