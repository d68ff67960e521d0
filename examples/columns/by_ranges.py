"""Adds up a table of lines `DAY;NAME;CENTS` by ranges of its bytes, each read by a worker of Dask.

    python3 by_ranges.py FILE [BYTES]

A range has BYTES, by default 64 MiB. The workers are processes of this machine; those of a cluster
need jadvolni and the file under its path. NAME may stand within quotes, and CENTS may be empty. The
rows, the sum and the first wrong cell are those of one call over the whole file, whichever worker
ends first.
"""

import os
import sys

import command
import jadvolni

CELLS = {"day": "u16", "name": None, "cents": jadvolni.Column("i64", may_miss=True)}
BLOCK = 1 << 20


class Part:
    """A file from one place to another."""

    def __init__(self, file, start: int, stop: int):
        file.seek(start)
        self.file, self.left = file, stop - start

    def read(self, size: int) -> bytes:
        """At most `size` bytes."""
        block = self.file.read(min(size, self.left))
        self.left -= len(block)
        return block


def blocks_of(part: Part):
    """The blocks of a part."""
    while block := part.read(BLOCK):
        yield block


def quotes_in(path: str, start: int, stop: int) -> int:
    """How many quotes stand in a range. A worker calls this."""
    with open(path, "rb") as file:
        return sum(block.count(b'"') for block in blocks_of(Part(file, start, stop)))


def row_behind(file, place: int, quotes: int) -> int:
    """Where the first row starts behind one that ends at a place or later.

    `quotes` quotes come before the place: a line feed after an odd number of them ends no row.
    """
    for block in blocks_of(Part(file, place, sys.maxsize)):
        lines = block.split(b"\n")
        for line in lines[:-1]:
            place, quotes = place + len(line) + 1, quotes + line.count(b'"')
            if quotes % 2 == 0:
                return place
        place, quotes = place + len(lines[-1]), quotes + lines[-1].count(b'"')
    return place


def read_range(path: str, start: int, stop: int, quotes):
    """The rows of a range, or what is wrong with the first wrong cell. A worker calls this.

    They are those behind the first one that ends in the range, up to the first one that ends behind
    it. A range at the file's start has the first row too. `quotes` says how many precede each end.
    """
    with open(path, "rb") as file:
        first = row_behind(file, start, quotes[0]) if start else 0
        last = row_behind(file, stop, quotes[1])
        try:
            rows = jadvolni.read_table(Part(file, first, last), CELLS, ";", has_quotes=True)
        except jadvolni.ParseError as error:  # (not raised: a scheduler may lose what it has)
            return {"fault": (error.row, error.column, first + error.place, error.kind)}
    cents = rows["cents"]
    return {"rows": len(rows["day"]), "known": int(sum(cents.present)),
            "sum": sum(cents.numbers.tolist())}


def total(run, path: str, size: int):
    """What the ranges of a file have together. ValueError has the first wrong cell.

    `run` calls a function for each item of lists, anywhere, and gives its answers in their order.
    """
    end = os.stat(path).st_size
    starts = list(range(0, end, size)) or [0]
    stops = [*starts[1:], end]
    paths, before = [path] * len(starts), [0]
    for quotes in run(quotes_in, paths, starts, stops):
        before.append(before[-1] + quotes)
    found = {"rows": 0, "known": 0, "sum": 0}
    for answer in run(read_range, paths, starts, stops, zip(before, before[1:])):
        if "fault" in answer:
            row, column, place, kind = answer["fault"]
            row += found["rows"]
            raise ValueError(f"row {row + 1}, cell {column + 1}, byte {place}: {kind}")
        found = {name: found[name] + answer[name] for name in found}
    return found


def by_workers(client):
    """What calls a function for each item of lists by Dask's workers."""
    return lambda call, *lists: client.gather(client.map(call, *map(list, lists), pure=False))


def size_of(words) -> int:
    """How many bytes the command line asks for, and 0 where it is wrong."""
    if len(words) not in (2, 3):
        return 0
    try:
        return jadvolni.parse(words[2], "u64") if len(words) > 2 else 1 << 26
    except jadvolni.ParseError:
        return 0


def summary(path: str, size: int) -> str:
    """What the command says."""
    from distributed import Client

    with Client(threads_per_worker=1, dashboard_address=None) as client:
        found = total(by_workers(client), os.path.abspath(path), size)
    return f"{found['rows']} rows, {found['known']} with cents, sum {found['sum']}"


def main() -> None:
    """The command line."""
    size = size_of(sys.argv)
    command.ask(size > 0, __doc__)
    command.tell(sys.argv[1], lambda path: summary(path, size))


if __name__ == "__main__":
    main()
