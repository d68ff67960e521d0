#!/usr/bin/env python3
"""Measures tables: the C call and Python's, beside what their users would write instead.

    bench/tables.py [--cells N] [--rounds N] [--seed N] [--against CHECKOUT]
    bench/tables.py --megabytes N [--cells N] [--rounds N] [--seed N]

A table has 1,000,000 cells of i64, a comma between two of a row. Each reader gives the columns, and
is measured as bench/columns.py does; ours also by blocks, as a file is read. Beside them stands a
pass that only counts rows and cells, by 64 bytes at once. Tables of further kinds are read in C++
alone, but for a ledger with amounts and texts, which Python and pandas read too. It needs what
columns.py needs, and takes pandas too where it is there. It writes bench/tables.tsv and a table of
docs/SPEED.md, and prints what it sees; against another checkout it does as columns.py. The gate
runs none of this.

With --megabytes it writes a file of that size, 1000 for 1 GB, with amounts and texts, and prints
what those readers take of it that read it by blocks and add up its numbers. Their rounds are a
tenth. The file is below the folder for temporary files, which TMPDIR names.
"""
from __future__ import annotations

import csv
import importlib
import io
import itertools
import os
import random
import shutil
import sys
import tempfile
from types import ModuleType
from typing import Callable, Iterable, Iterator

import columns
import page


def field(least: int, most: int, signs: tuple[int, ...] = (1,)) -> columns.Number:
    """Numbers with that many digits and one of these signs."""
    return lambda random_: random_.choice(signs) * columns.digits(
        random_, random_.randint(least, most))


def or_missing(draw: columns.Number) -> columns.Draw:
    """The same, but one in ten is missing."""
    return lambda random_: None if random_.randrange(10) == 0 else draw(random_)


def purpose(random_: random.Random) -> str:
    """What an entry is for: one to four words."""
    return " ".join(random_.choices(WORDS, k=random_.randint(1, 4)))


def date(random_: random.Random) -> str:
    """A day, as a ledger has it."""
    return f"{random_.randint(1, 28):02}.{random_.randint(1, 12):02}.{random_.randint(2000, 2026)}"


def description(random_: random.Random) -> str:
    """What an entry is for; one in ten has quotes."""
    text = purpose(random_)
    return f'"{text}"' if random_.randrange(10) == 0 else text


def quoted(text: str) -> str:
    """A text within quotes."""
    return '"' + text.replace('"', '""') + '"'


def amount(cents: int) -> str:
    """An amount with two places."""
    return f"{'-' if cents < 0 else ''}{abs(cents) // 100}.{abs(cents) % 100:02}"


WORDS = ["rent", "bank", "insurance", "paper", "of", "the", "office", "travel", "March", "fee"]
# An entry's day, account and cents, and more of what stands beside them.
LEDGER = [field(5, 5), field(8, 8), field(2, 7, (-1, 1, 1, 1)), field(1, 6), field(1, 2),
          field(4, 4), field(1, 3), field(10, 10), field(1, 1), field(1, 9, (-1, 1))]
# An entry of a bank's export: its number, its day, what it is for, and its amount in cents.
EXPORT: list[columns.Draw] = [field(8, 8), date, description,
                              field(2, 7, (-1, 1, 1, 1))]
NAMES = ["id", "date", "what", "amount"]


def types_of_export(jadvolni: ModuleType) -> dict[str, object]:
    """What the binding reads of such an export."""
    text, cents = jadvolni.Text(), jadvolni.Fixed("i64", places=2)
    return dict(zip(NAMES, ["i64", text, text, cents]))


def how_of_pandas() -> dict[str, object]:
    """What pandas is asked for of such an export: its amounts are floats."""
    types = dict(zip(NAMES, ["i8", "str", "str", "f8"]))
    return {"header": None, "names": NAMES, "dtype": types, "keep_default_na": False}


def cents_of(amounts: Iterable[float]) -> Iterator[int]:
    """The cents of pandas' amounts. They are made as they are asked for, so that no time counts."""
    return (round(100 * it) for it in amounts)


def readers_of_export(jadvolni: ModuleType, text: bytes) -> columns.Readers:
    """Python's readers of an export."""
    types = types_of_export(jadvolni)
    found: columns.Readers = {"Python: read_table": lambda: [
        jadvolni.read_table(io.BytesIO(text), types, has_quotes=True).values()]}
    if columns.is_installed("pandas"):
        read_csv, how = importlib.import_module("pandas").read_csv, how_of_pandas()

        def by_pandas() -> list[list[Iterable[object]]]:
            frame = read_csv(io.BytesIO(text), **how)
            return [[*(frame[name] for name in NAMES[:3]), cents_of(frame["amount"])]]

        found["pandas: read_csv"] = by_pandas
    return found


# A further kind is one line here, and a line of driver/tables.cpp if no word there fits.
SETS: dict[str, columns.Text] = {
    "ledger, 3 columns": columns.Text(LEDGER[:3]),
    "ledger, 10 columns": columns.Text(LEDGER),
    "realistic, 3 columns": columns.Text([columns.realistic] * 3),
    "realistic, 10 columns": columns.Text([columns.realistic] * 10),
    "realistic, 100 columns": columns.Text([columns.realistic] * 100),
    "CR LF": columns.Text(LEDGER[:3], "returns", end="\r\n"),
    "one cell in ten missing": columns.Text([*map(or_missing, LEDGER[:3])], "missing"),
    "quotes allowed": columns.Text(LEDGER[:3], "quotes"),
    "all cells within quotes": columns.Text(LEDGER[:3], "quotes", quote='"'),
    "a text column": columns.Text([purpose, *LEDGER[:3]], "text"),
    "ledger with amounts and texts": columns.Text(
        EXPORT, "export", shows=[str, str, quoted, amount], readers=readers_of_export),
}
ABOUT = ("The cells are of `i64`, with a comma between two of a row. A block from C has 64 KiB, "
         "one of `iter_table` 1 MiB, and a chunk 20,000 rows. Below the plain tables are ledgers "
         "of three columns of other kinds, where the loop of `from_chars` does no more than that "
         "kind needs. A missing cell is empty. The text column comes before the three others; it "
         "isn't read, but counts as a cell. The ledger with amounts and texts has a number, a day, "
         "a text within quotes and an amount with two places. Its texts are places for the C call, "
         "undecoded bytes for `read_table`, and `str` for pandas, whose amounts are floats. One "
         "pass over the bytes only counts line feeds and commas, 64 bytes at a time: no reader "
         "that works this way can take less. While other virtual machines use the processor, all "
         "readers slow down, `from_chars` least.")


def by_csv(text: bytes) -> list[list[int]]:
    """The columns of a text, row by row, as Python's csv gives them."""
    rows = csv.reader(io.StringIO(text.decode()))
    found = [[int(cell)] for cell in next(rows)]
    for row in rows:
        for column, cell in zip(found, row):
            column.append(int(cell))
    return found


def readers(jadvolni: ModuleType, text: bytes) -> columns.Readers:
    """Python's readers of a text."""
    types = {str(index): "i64" for index in range(text[:text.index(b"\n")].count(b",") + 1)}
    found: columns.Readers = {
        "Python: parse_table": lambda: [jadvolni.parse_table(text, types).values()],
        "Python: iter_table": lambda: [
            block.values() for block in jadvolni.iter_table(io.BytesIO(text), types)],
        "Python: csv": lambda: [by_csv(text)],
    }
    if columns.is_installed("NumPy"):
        numpy = importlib.import_module("numpy")
        found["NumPy: loadtxt"] = lambda: [
            numpy.loadtxt(io.BytesIO(text), dtype="i8", delimiter=",", unpack=True)]
    if columns.is_installed("pandas"):
        pandas = importlib.import_module("pandas")
        found["pandas: read_csv"] = lambda: [
            dict(pandas.read_csv(io.BytesIO(text), header=None, dtype="i8")).values()]
        found["pandas: by chunks"] = lambda: [
            dict(chunk).values() for chunk in pandas.read_csv(
                io.BytesIO(text), header=None, dtype="i8", chunksize=20_000)]
    return found


def sums_in_python(jadvolni: ModuleType, path: str) -> dict[str, Callable[[], int]]:
    """What adds up the numbers of an export in a file, block by block."""
    types = types_of_export(jadvolni)

    def by_iter_table() -> int:
        with open(path, "rb") as file:
            blocks = jadvolni.iter_table(file, types, has_quotes=True)
            return sum(int(sum_of(block[name])) for block in blocks for name in ("id", "amount"))

    found: dict[str, Callable[[], int]] = {"Python: iter_table": by_iter_table}
    if not columns.is_installed("pandas"):
        return found
    read_csv, how = importlib.import_module("pandas").read_csv, how_of_pandas()

    def by_chunks() -> int:
        chunks = read_csv(path, chunksize=20_000, **how)
        return sum(int(it["id"].sum()) + round(100 * it["amount"].sum()) for it in chunks)

    return {**found, "pandas: by chunks": by_chunks}


def sum_of(numbers: Iterable[int]) -> int:
    """The sum of an array, NumPy's where it is one."""
    add = getattr(numbers, "sum", None)
    return int(add()) if add else sum(numbers)


def need_room(megabytes: int) -> None:
    """Ends the script with a message if there is no room for a file of that size."""
    folder = tempfile.gettempdir()
    room = shutil.disk_usage(folder).free // 10 ** 6
    if megabytes > room:
        sys.exit(f"bench: {folder} has room for {room} MB, and not for {megabytes}; "
                 "TMPDIR names another")


def write_file(path: str, asked: page.Asked) -> tuple[int, int]:
    """Writes one text again and again, up to a size: how many cells it has, and their sum."""
    how = SETS["ledger with amounts and texts"]
    cells = how.drawn(asked)
    text, count = how.written(cells), len(cells) * len(cells[0])
    times = max(asked.megabytes * 10 ** 6 // len(text), 1)
    with open(path, "wb") as file:
        for _ in range(times):
            file.write(text)
    numbers = (it for it in itertools.chain(*cells) if isinstance(it, int))
    return times * count, times * sum(numbers)


def measure_file(asked: page.Asked) -> None:
    """Prints what readers take of a file that is larger than their blocks, which they add up."""
    page.need("make", "cc", "c++")
    need_room(asked.megabytes)
    rounds = max(asked.rounds // 10, 1)
    with tempfile.TemporaryDirectory() as folder:
        programs, jadvolni = columns.built(folder, "tables"), columns.binding(folder)
        path = os.path.join(folder, "export")
        count, total = write_file(path, asked)
        print(f"{os.path.getsize(path) / 10 ** 6:.0f} MB, {count} cells\treader\tns a cell")
        found = columns.timed(programs, [str(rounds), "export", path], b"", total % 2 ** 64)
        print("\n".join(f"file\t{name}\t{it:.2f}" for name, it in found.items()), flush=True)
        for name, add in sums_in_python(jadvolni, path).items():
            columns.need_same(name, add(), total)
            print(f"file\t{name}\t{columns.least_time(add, count, rounds):.2f}", flush=True)


def main() -> int:
    """The command line."""
    asked = page.asked(__doc__, "cells", size=1_000_000, rounds=25, compares=True, has_files=True)
    if asked.megabytes:
        measure_file(asked)
        return 0
    return columns.run("tables", asked, SETS, readers, ["NumPy", "pandas"], ABOUT)


if __name__ == "__main__":
    sys.exit(page.ended(main))
