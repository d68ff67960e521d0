#!/usr/bin/env python3
"""Measures the program lexint beside Rust programs that answer the same lines.

    bench/program.py [--lines N] [--rounds N] [--seed N]

The lines are `c u64 TEXT`. The programs are driver/program.rs, once with `writeln!` and once with
digits of its own. All take turns, read the lines from a file, and write to /dev/null; of each the
least processor time counts, of the user and of the system together. All have to answer alike before
their time counts. Callgrind counts instructions, where it is there. It needs the toolchain and
`rustc`, writes bench/program.tsv and a table of docs/SPEED.md, and prints what it sees. The gate
runs none of this.
"""
from __future__ import annotations

import os
import random
import resource
import shutil
import subprocess
import sys
import tempfile

import drivers
import page
from columns import SETS

HERE = os.path.dirname(os.path.abspath(__file__))
TOP = os.path.dirname(HERE)
SHOWN = ("realistic", "1 to 3 digits", "19 digits")
OURS = "lexint"
# The number of lines that callgrind counts.
COUNTED = 100_000

Programs = dict[str, list[str]]


def programs(folder: str) -> Programs:
    """The programs by their names, ours first."""
    drivers.run(["make", "-s", "lexint"], TOP)
    peer = os.path.join(folder, "program")
    source = os.path.join(HERE, "driver", "program.rs")
    drivers.run(["rustc", "-O", "-Ctarget-cpu=x86-64-v2", source, "-o", peer], folder)
    ours = os.path.join(TOP, "crates", "lexint", "out", "lexint")
    return {OURS: [ours], "writeln!": [peer, "writeln"], "own digits": [peer, "digits"]}


def processor_time(words: list[str], path: str) -> float:
    """The seconds that a run over a file takes of a processor."""
    before = resource.getrusage(resource.RUSAGE_CHILDREN)
    with open(path, "rb") as lines:
        subprocess.run(words, stdin=lines, stdout=subprocess.DEVNULL, check=True)
    after = resource.getrusage(resource.RUSAGE_CHILDREN)
    return after.ru_utime - before.ru_utime + after.ru_stime - before.ru_stime


def write_lines(path: str, name: str, count: int, seed: int) -> None:
    """The first lines of a set."""
    random_ = random.Random(seed)
    with open(path, "w", encoding="ascii") as file:
        file.writelines(f"c u64 {SETS[name](random_)}\n" for _ in range(count))


def check_answers(found: Programs, path: str) -> None:
    """Ends this program where two answer otherwise."""
    answers = set()
    for words in found.values():
        with open(path, "rb") as lines:
            answers.add(subprocess.run(words, stdin=lines, capture_output=True, check=True).stdout)
    if len(answers) != 1:
        sys.exit("bench: the programs answer otherwise")


def row(found: Programs, name: str, folder: str, asked: page.Asked) -> str:
    """A line of the table: seconds of ours, and the ratios to its peers."""
    path, few = os.path.join(folder, "lines"), os.path.join(folder, "few")
    write_lines(path, name, asked.size, asked.seed)
    write_lines(few, name, COUNTED, asked.seed)
    check_answers(found, few)
    least = dict.fromkeys(found, float("inf"))
    for _ in range(asked.rounds):
        for peer, words in found.items():
            least[peer] = min(least[peer], processor_time(words, path))
    peers = [peer for peer in found if peer != OURS]
    cells = [name, f"{least[OURS]:.3f}", *(f"{least[OURS] / least[peer]:.2f}" for peer in peers)]
    if not shutil.which("valgrind"):
        return "\t".join([*cells, *("" for _ in peers)])
    counts = {peer: page.instructions(words, few) for peer, words in found.items()}
    cells += [f"{counts[OURS] / counts[peer]:.2f}" for peer in peers]
    return "\t".join(cells)


def write(rows: list[str], asked: page.Asked) -> None:
    """Writes bench/program.tsv and the table of docs/SPEED.md."""
    on = asked.measured_on()
    head = ["lines", "lexint, s", "relative to writeln!", "relative to own digits",
            "instructions relative to writeln!", "instructions relative to own digits"]
    first = f"# The program, measured by bench/program.py on {on}"
    page.put(os.path.join(HERE, "program.tsv"), "\n".join([first, "\t".join(head), *rows]) + "\n")
    table = page.table(head, [one.split("\t") for one in rows])
    page.write("bench/program.py", [f"Measured on {on}", "", *table, ""])


def main() -> int:
    """The command line."""
    asked = page.asked(__doc__, "lines", size=2_000_000, rounds=15)
    page.need("make", "rustc")
    rows = []
    with tempfile.TemporaryDirectory() as folder:
        found = programs(folder)
        for name in SHOWN:
            rows.append(row(found, name, folder, asked))
            print(rows[-1], flush=True)
    write(rows, asked)
    return 0


if __name__ == "__main__":
    sys.exit(page.ended(main))
