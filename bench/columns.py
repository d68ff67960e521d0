#!/usr/bin/env python3
"""Measures columns: the C call and Python's, beside what their users would write instead.

    bench/columns.py [--numbers N] [--rounds N] [--seed N] [--against CHECKOUT]

A column has 1,000,000 numbers of u64, a line feed after each. The C call and a loop of
std::from_chars take turns in one run, so that their ratio holds on a busy machine too; the others
have runs of their own. The least time of each counts. The two are linked four times, sixteen bytes
apart, since alignment changes a loop's time. All have to read the same numbers before their time
counts. It needs the library of `make lib`, or that which JADVOLNI_LIBRARY names, a C++ compiler and
Python's headers; rustc and NumPy are taken where they are there. It writes bench/columns.tsv and a
table of docs/SPEED.md, and prints what it sees. Against another built checkout it writes nothing:
it prints what the readers in C++ take with this library and with that one, by turns. The gate runs
none of this.
"""
from __future__ import annotations

import importlib
import importlib.util
import io
import itertools
import os
import random
import shutil
import subprocess
import sys
import tempfile
import time
from dataclasses import dataclass
from pathlib import Path
from types import ModuleType
from typing import Any, Callable, Iterable, Optional, Sequence

import drivers
import page

HERE = os.path.dirname(os.path.abspath(__file__))
TOP = os.path.dirname(HERE)
PYTHON = os.path.join(TOP, "bindings", "python")
FLAGS = ["-std=c++20", "-O3", "-march=x86-64-v2"]
# In how many turns two checkouts are compared, by each of their drivers.
TURNS = 5

# A cell is a number, a word that isn't read, or None for a missing number. What draws them.
Cell = int | str | None
Number = Callable[[random.Random], int]
Draw = Callable[[random.Random], Cell]
# What reads a text: it gives blocks, each of which has its columns.
Reader = Callable[[], Iterable[Iterable[Iterable[object]]]]
Readers = dict[str, Reader]
# Python's readers of a text, by the binding and by others.
ReadersOf = Callable[[ModuleType, bytes], Readers]
Seen = dict[str, dict[str, float]]


@dataclass
class Text:
    """A text that is read: what draws the cells of each column, and how they are written.

    The drivers in C++ know that by the word `kind`. All other readers know the plain one alone,
    which has no word, unless the text has readers of its own. `shows` writes the cells of each
    column, if they aren't written as they are drawn."""

    columns: Sequence[Draw]
    kind: str = ""
    end: str = "\n"
    quote: str = ""
    shows: Sequence[Callable[[Any], str]] = ()
    readers: Optional[ReadersOf] = None

    def drawn(self, asked: page.Asked) -> list[list[Cell]]:
        """The cells of each column."""
        random_, rows = random.Random(asked.seed), range(max(asked.size // len(self.columns), 1))
        return [[draw(random_) for _ in rows] for draw in self.columns]

    def words(self, rounds: int) -> list[str]:
        """What a driver is asked: to read such a text so often."""
        return [str(rounds), *self.kind.split()]

    def show(self, cell: Cell) -> str:
        """A cell as it is drawn."""
        return f"{self.quote}{'' if cell is None else cell}{self.quote}"

    def written(self, cells: list[list[Cell]]) -> bytes:
        """The text of such columns."""
        shows = self.shows or [self.show] * len(cells)
        shown = [map(show, column) for show, column in zip(shows, cells)]
        return "".join(",".join(row) + self.end for row in zip(*shown)).encode()


def digits(random_: random.Random, count: int) -> int:
    """A number with that many digits."""
    return random_.randrange(10 ** (count - 1) if count > 1 else 0, 10 ** count)


def realistic(random_: random.Random) -> int:
    """A number as counts, sizes and times are: most are short."""
    kind = random_.randrange(100)
    least, most = (1, 4) if kind < 70 else (5, 10) if kind < 95 else (11, 18)
    return digits(random_, random_.randint(least, most))


SETS: dict[str, Number] = {
    "realistic": realistic,
    "1 to 3 digits": lambda random_: digits(random_, random_.randint(1, 3)),
    "7 digits": lambda random_: digits(random_, 7),
    "1 to 9 digits": lambda random_: digits(random_, random_.randint(1, 9)),
    "19 digits": lambda random_: digits(random_, 19) // 2 + 10 ** 18 // 2,
}
ABOUT = "The numbers are of `u64`, with a line feed after each."


def library() -> str:
    """This checkout's library: the one that JADVOLNI_LIBRARY names, or else that of `make lib`."""
    if "JADVOLNI_LIBRARY" not in os.environ:
        drivers.run(["make", "-s", "lib"], TOP)
        os.environ["JADVOLNI_LIBRARY"] = os.path.join(TOP, "build", "libjadvolni.a")
    return os.environ["JADVOLNI_LIBRARY"]


def built(folder: str, name: str, checkout: str = "") -> list[str]:
    """The drivers of a name in C++, over this checkout's library, or over that of another one."""
    top = os.path.abspath(checkout) if checkout else TOP
    archive = os.path.join(top, "build", "libjadvolni.a") if checkout else library()
    if not os.path.exists(archive):
        sys.exit(f"bench: there is no {archive}")
    source = os.path.join(HERE, "driver", f"{name}.cpp")
    words = [*FLAGS, f"-I{os.path.join(top, 'include')}", source, archive]
    found = []
    for skipped in range(16, 80, 16):
        found.append(os.path.join(folder, f"cpp_{skipped}"))
        drivers.run(["c++", f'-DSKIPPED="{skipped}"', *words, "-o", found[-1]], folder)
    return found


def built_in_rust(folder: str, name: str) -> list[str]:
    """The driver of a name in Rust, where rustc is there."""
    if not shutil.which("rustc"):
        return []
    driver, source = os.path.join(folder, "rs"), os.path.join(HERE, "driver", f"{name}.rs")
    drivers.run(["rustc", "-O", "-Ctarget-cpu=x86-64-v2", source, "-o", driver], folder)
    return [driver]


def binding(folder: str) -> ModuleType:
    """The module for Python, made in a folder."""
    sys.path.insert(0, PYTHON)
    library()
    build_wheel = importlib.import_module("build_wheel")
    for name, content in build_wheel.contents().items():
        file = Path(folder) / name
        file.parent.mkdir(exist_ok=True)
        file.write_bytes(content)
    sys.path.insert(0, folder)
    return importlib.import_module("jadvolni")


def least_time(read: Callable[[], object], count: int, rounds: int) -> float:
    """Nanoseconds a number."""
    least = float("inf")
    for _ in range(rounds):
        start = time.perf_counter_ns()
        read()
        least = min(least, (time.perf_counter_ns() - start) / count)
    return least


def is_installed(name: str) -> bool:
    """Whether a package of Python is there."""
    return importlib.util.find_spec(name.lower()) is not None


def readers(jadvolni: ModuleType, text: bytes) -> Readers:
    """Python's readers of a text."""
    found: Readers = {
        "Python: parse_column": lambda: [[jadvolni.parse_column(text, "u64")]],
        "Python: int over split": lambda: [[[int(one) for one in text.split()]]],
    }
    if is_installed("NumPy"):
        numpy = importlib.import_module("numpy")
        found["NumPy: fromstring"] = lambda: [[numpy.fromstring(text, dtype="u8", sep="\n")]]
        found["NumPy: loadtxt"] = lambda: [[numpy.loadtxt(io.BytesIO(text), dtype="u8")]]
    return found


def timed(programs: list[str], words: list[str], text: bytes, total: int) -> dict[str, float]:
    """Nanoseconds a cell of each reader of some drivers, whose numbers have to have this sum."""
    found: dict[str, float] = {}
    for driver in programs:
        ran = subprocess.run([driver, *words], input=text, capture_output=True, check=True)
        for line in ran.stdout.decode().splitlines():
            peer, taken, summed = line.split("\t")
            need_same(peer, int(summed), total)
            found[peer] = min(float(taken), found.get(peer, float("inf")))
    return found


def timed_in_python(peers: Readers, numbers: list[list[Cell]], rounds: int) -> dict[str, float]:
    """Nanoseconds a number of each reader in Python of a text, whose columns these are."""
    found = {}
    for peer, read in peers.items():
        need_same(peer, [list(itertools.chain(*one)) for one in zip(*read())], numbers)
        found[peer] = least_time(read, sum(map(len, numbers)), max(rounds // 5, 3))
    return found


def total_of(cells: list[list[Cell]]) -> int:
    """The sum of all numbers, as the drivers have it."""
    return sum(cell for cell in itertools.chain(*cells) if isinstance(cell, int)) % 2 ** 64


def need_same(peer: str, answer: object, wanted: object) -> None:
    """Ends the script where a reader answers otherwise."""
    if answer != wanted:
        sys.exit(f"bench: {peer} reads other numbers")


def lines_of(seen: Seen) -> list[str]:
    """What was seen, a line for each text and reader."""
    return ["\t".join((name, peer, f"{taken:.2f}", f"{taken / found['from_chars']:.2f}"))
            for name, found in seen.items() for peer, taken in found.items()]


def table(seen: Seen, unit: str) -> list[str]:
    """The same as a table, relative to from_chars. Not each reader reads all texts."""
    # Each reader once, in the order in which they come first.
    peers = [peer for peer in dict.fromkeys(itertools.chain(*seen.values()))
             if peer != "from_chars"]
    rows = []
    for name, found in seen.items():
        one = found["from_chars"]
        rows.append([name, f"{one:.1f}", *(f"{found[peer] / one:.2f}" if peer in found else ""
                                           for peer in peers)])
    return page.table([unit, "from_chars, ns", *peers], rows)


def write(kind: str, seen: Seen, asked: page.Asked, lacking: list[str], about: str) -> None:
    """Writes bench/KIND.tsv and a table of docs/SPEED.md."""
    on = asked.measured_on()
    left_out = [f"Not measured: {name}, which is not installed." for name in lacking]
    head = [f"# {kind.capitalize()}, measured by make bench on {on}",
            *(f"# {one}" for one in left_out),
            "\t".join((asked.unit, "reader", f"ns a {asked.unit[:-1]}", "to from_chars"))]
    page.put(os.path.join(HERE, f"{kind}.tsv"), "\n".join([*head, *lines_of(seen)]) + "\n")
    about += (" Times are relative to a loop of `from_chars`. "
              f"[{kind}.tsv](../bench/{kind}.tsv) has the nanoseconds.")
    said = [f"Measured on {on}", *left_out, "", about, "", *table(seen, asked.unit), ""]
    page.write(f"bench/{kind}.py", said)


def measure(kind: str, asked: page.Asked, sets: dict[str, Text],
            readers_of: ReadersOf, packages: list[str], about: str) -> None:
    """Measures all readers of such texts, and writes what it sees and which it lacks."""
    seen: Seen = {}
    with tempfile.TemporaryDirectory() as folder:
        programs, in_rust = built(folder, kind), built_in_rust(folder, kind)
        jadvolni = binding(folder)
        for name, how in sets.items():
            cells, words = how.drawn(asked), how.words(asked.rounds)
            text, total = how.written(cells), total_of(cells)
            seen[name] = timed(programs, words, text, total)
            if not how.kind:
                seen[name] |= timed(in_rust, words, text, total)
            if how.readers or not how.kind:
                in_python = (how.readers or readers_of)(jadvolni, text)
                seen[name] |= timed_in_python(in_python, cells, asked.rounds)
            print("\n".join(lines_of({name: seen[name]})), flush=True)
    write(kind, seen, asked, [name for name in packages if not is_installed(name)], about)


def compare(kind: str, asked: page.Asked, sets: dict[str, Text]) -> None:
    """Prints what the readers in C++ take over this library and over that of another checkout.

    The drivers of both take turns. Readers without the library show how far to trust the ratios."""
    with tempfile.TemporaryDirectory() as here, tempfile.TemporaryDirectory() as there:
        pairs = list(zip(built(here, kind), built(there, kind, asked.against)))
        print(f"{asked.unit}\treader\tns here\tns there\there to there", flush=True)
        for name, how in sets.items():
            cells, words = how.drawn(asked), how.words(max(asked.rounds // TURNS, 1))
            text, total = how.written(cells), total_of(cells)
            turns = [[timed([driver], words, text, total) for driver in pair]
                     for pair in pairs * TURNS]
            for peer in turns[0][0]:
                ours, theirs = (min(turn[peer] for turn in side) for side in zip(*turns))
                print(f"{name}\t{peer}\t{ours:.2f}\t{theirs:.2f}\t{ours / theirs:.2f}", flush=True)


def run(kind: str, asked: page.Asked, sets: dict[str, Text],
        readers_of: ReadersOf, packages: list[str], about: str) -> int:
    """Measures such texts, or compares two checkouts over them, as it is asked."""
    page.need("make", "cc", "c++")
    if asked.against:
        compare(kind, asked, sets)
    else:
        measure(kind, asked, sets, readers_of, packages, about)
    return 0


def main() -> int:
    """The command line."""
    asked = page.asked(__doc__, "numbers", size=1_000_000, rounds=25, compares=True)
    sets = {name: Text([number]) for name, number in SETS.items()}
    return run("columns", asked, sets, readers, ["NumPy"], ABOUT)


if __name__ == "__main__":
    sys.exit(page.ended(main))
