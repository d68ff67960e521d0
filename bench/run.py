#!/usr/bin/env python3
"""Measures the parsers beside Rust's std, C++'s from_chars, C's strtoull and lexical-core.

    bench/run.py [--rounds N] [--seed N] [--small N] [--large N] [--no-counts]

Every peer reads the same texts in one run, in turn: of each the least time counts, with that of an
empty loop taken off. A loop's time depends on its alignment, so the driver is linked four
times, sixteen bytes apart, and the least of all counts. Four more have each of our
calls at twenty places. There are two sizes of each set: 4,096 texts, whose branches a processor
learns, and 60,000, whose it doesn't. Where callgrind is installed, instructions are counted too. It
writes bench/results.tsv, bench/results.svg and the table of docs/SPEED.md, and prints the table.
The gate runs none of this.
"""
from __future__ import annotations

import concurrent.futures
import datetime
import os
import re
import shutil
import subprocess
import sys
from typing import Sequence

import drivers
import page
import report

COUNTED = 500


def said_by(driver: str, *words: str) -> list[list[str]]:
    """The lines that a driver prints, as their columns."""
    ran = subprocess.run([driver, *words], capture_output=True, text=True)
    if ran.returncode:
        sys.exit(f"bench: the driver failed: {ran.stderr.strip()}")
    return [line.split("\t") for line in ran.stdout.splitlines()]


def measured(built: list[str], count: int, rounds: int, seed: int) -> report.Numbers:
    """Nanoseconds a text, without the loop, by set and peer: the least of all drivers."""
    least: dict[tuple[str, str], tuple[float, float]] = {}
    for driver in built:
        for name, peer, taken, empty in said_by(driver, "time", str(count), str(rounds), str(seed)):
            before = least.get((name, peer), (float("inf"), float("inf")))
            least[name, peer] = min(before[0], float(taken)), min(before[1], float(empty))
    found: report.Numbers = {}
    for (name, peer), (of_texts, of_loop) in least.items():
        found.setdefault(name, {})[peer] = max(of_texts - of_loop, 0.01)
    return found


def instructions(driver: str, seed: int, name: str, peer: str) -> int:
    """How many instructions a run of one loop has, from the program's start to its end."""
    return page.instructions([driver, "once", str(COUNTED), str(seed), name, peer])


def counted(driver: str, seed: int, peers: Sequence[str] = ()) -> report.Numbers:
    """Instructions a text, without the loop, by set and peer: of all peers, or of these alone."""
    rows = [(name, peer, f"loop of {own}") for name, peer, own in said_by(driver, "list")
            if not peers or peer in peers]
    runs = list({(name, one) for name, peer, loop in rows for one in (peer, loop)})
    with concurrent.futures.ThreadPoolExecutor(os.cpu_count() or 1) as pool:
        totals = dict(zip(runs, pool.map(lambda it: instructions(driver, seed, *it), runs)))
    found: report.Numbers = {}
    for name, peer, loop in rows:
        found.setdefault(name, {})[peer] = (totals[name, peer] - totals[name, loop]) / COUNTED
    return found


def add_many(found: report.Numbers, many: report.Numbers) -> None:
    """Puts what ours takes at many places beside the others, as many times std as in its run."""
    for name, row in many.items():
        unit = found[name]["std"] / row["std"] if "std" in row else 1
        found[name][report.AT_MANY] = row["ours"] * unit


def machine() -> str:
    """What it was measured on."""
    with open("/proc/cpuinfo", encoding="utf-8") as file:
        model = re.search(r"model name\s*:\s*(.*)", file.read())
    load = os.getloadavg()[0]
    said = [f"{os.cpu_count()} cores of {model[1].strip() if model else 'an unknown processor'}",
            f"load {load:.1f} at the start" + (", so that times are rough" if load > 1 else "")]
    for words in (["rustc", "--version"], ["c++", "--version"]):
        said.append(subprocess.run(words, capture_output=True, text=True).stdout.split("\n")[0])
    return ", ".join(said)


def main() -> int:
    """The command line."""
    parser = page.options(__doc__, rounds=400)
    parser.add_argument("--small", type=page.positive, default=4096, help="texts in a small set")
    parser.add_argument("--large", type=page.positive, default=60000, help="texts in a large set")
    parser.add_argument("--no-counts", action="store_true", help="count no instructions")
    asked = parser.parse_args()
    page.need(*drivers.NEEDED)
    built, many, left_out = drivers.drivers()
    on = machine()
    rounds = max(asked.rounds // len(built), 5)
    small = measured(built, asked.small, rounds, asked.seed)
    add_many(small, measured(many, asked.small, rounds, asked.seed))
    large = measured(built, asked.large, max(rounds // 4, 5), asked.seed)
    counts = {}
    if asked.no_counts:
        left_out.append("instructions: they were not asked for")
    elif shutil.which("valgrind"):
        counts = counted(built[0], asked.seed)
        add_many(counts, counted(many[0], asked.seed, ["ours"]))
    else:
        left_out.append("instructions: valgrind is not installed")
    seen = report.Seen(on, datetime.date.today().isoformat(), asked, small, large, counts, left_out)
    report.write_all(seen)
    print(report.table(seen))
    for what in left_out:
        print(f"not measured: {what}")
    return 0


if __name__ == "__main__":
    sys.exit(page.ended(main))
