#!/usr/bin/env python3
"""Measures the tokens of a source: `lexical_literals::Tokens` beside a lexer written by hand.

    bench/tokens.py [--bytes N] [--rounds N] [--seed N]

A source has 10,000,000 bytes. The two take turns in one run, and have to find the same tokens
before any time counts; of each the least time counts. Where callgrind is installed, instructions
are counted too, on a shorter source. It needs the toolchain and rustc. It writes a table of
docs/SPEED.md, and prints it. The gate runs none of this.
"""
from __future__ import annotations

import os
import random
import shutil
import subprocess
import sys
from typing import Callable

import drivers
import page

CRATES = (*drivers.CRATES, "lexical_literals")
COUNTED = 100_000
PEERS = ("a lexer by hand", "ours")

CALLERS = """// Loops over the tokens of a source, for a driver in Rust.
#![tactic(auto)]

use lexical_literals::{Kind, Tokens};

/// What the tokens add up to, so that no part of one can be left out.
#[unsafe(no_mangle)]
pub extern "C" fn ours_tokens(source: &[u8]) -> u64 {
    let mut sum = 0u64;
    for token in Tokens::new(source) {
        let worth = match token.kind {
            Kind::Number(value) => (value % 0x1_0000_0000_0000_0000) as u64,
            Kind::Word => 1,
            Kind::Byte => 2,
            Kind::Fault(_) => 3,
        };
        let places = token.start.wrapping_add(token.stop).wrapping_add(token.text.len());
        sum = sum.wrapping_mul(31).wrapping_add(worth).wrapping_add(places as u64);
    }
    sum
}

/// How many tokens there are.
#[unsafe(no_mangle)]
pub extern "C" fn ours_count(source: &[u8]) -> usize {
    Tokens::new(source).count()
}
"""

WORDS = ("if else while return total count index value next size left right buffer_length is_valid "
         "x i n").split()


def word(random_: random.Random) -> str:
    """A word of a program."""
    return random_.choice(WORDS)


def decimal(random_: random.Random) -> str:
    """A decimal number, of few digits most often."""
    return str(random_.randrange(10 ** random_.choice((1, 1, 2, 2, 3, 4, 6, 9, 18))))


Maker = Callable[[random.Random], str]
# What a source has, by how many of ten operands are so.
OPERANDS: dict[str, list[tuple[int, Maker]]] = {
    "mixed": [(5, word), (3, decimal), (1, lambda random_: f"0x{random_.randrange(2 ** 32):X}"),
              (1, lambda random_: f"{random_.randrange(10 ** 6):_}")],
    "decimal numbers": [(10, decimal)],
    "hexadecimal numbers": [
        (10, lambda random_: f"0x{random_.randrange(2 ** random_.randint(4, 64)):x}")],
    "grouped numbers": [(5, lambda random_: f"{random_.randrange(10 ** 4, 10 ** 9):_}"),
                        (5, lambda random_: f"0x{random_.randrange(2 ** 16, 2 ** 32):_x}")],
    "words": [(10, word)],
}


def source(kind: str, size: int, seed: int) -> bytes:
    """Lines such as `total = 12 + (0x1F * left);`."""
    random_ = random.Random(seed)
    weights, makers = zip(*OPERANDS[kind])
    lines: list[str] = []
    held = 0
    while held < size:
        one, two, three = (maker(random_) for maker in random_.choices(makers, weights, k=3))
        line = f"    {random_.choice(WORDS)} = {one} {random_.choice('+-*/')} ({two}, {three});\n"
        lines.append(line)
        held += len(line)
    return "".join(lines).encode()[:size]


def driver() -> str:
    """The driver's path, over the measured library, proved in a tree of its own."""
    room = os.path.join(drivers.room(), "tokens")
    folder = os.path.join(room, "crates", "bench_tokens")
    os.makedirs(os.path.join(folder, "src"), exist_ok=True)
    for crate in CRATES:
        of_crate = os.path.join("crates", crate)
        drivers.copy(os.path.join(drivers.TOP, of_crate), os.path.join(room, of_crate))
    drivers.write(
        os.path.join(room, "crates.txt"),
        drivers.LINES + "lexical_literals: lexical_util lexical_digits lexical_parse_integer\n"
        "bench_tokens staticlib: lexical_util lexical_parse_integer lexical_literals\n")
    drivers.write(os.path.join(folder, "src", "lib.rt"), CALLERS)
    drivers.run([os.environ.get("RT", "rt"), "lib"], folder)
    peer, source_of_peer = os.path.join(room, "tokens_rs"), os.path.join("driver", "tokens.rs")
    drivers.run(["rustc", "--edition=2024", "-O", "-Ctarget-cpu=x86-64-v2", "-L",
                 os.path.join(folder, "out"), "-lstatic=bench_tokens",
                 os.path.join(drivers.HERE, source_of_peer), "-o", peer], room)
    return peer


def answer_of(peer: str, path: str, rounds: int) -> dict[str, float]:
    """What the driver prints."""
    ran = subprocess.run([peer, path, str(rounds)], capture_output=True, text=True, check=True)
    return {name: float(found)
            for name, found in (line.split("\t") for line in ran.stdout.splitlines())}


def measured(peer: str, kind: str, asked: page.Asked) -> list[str]:
    """A row of the table."""
    path = os.path.join(drivers.room(), "tokens", "source")
    with open(path, "wb") as file:
        file.write(source(kind, asked.size, asked.seed))
    found = answer_of(peer, path, asked.rounds)
    hand, ours = (found[name] for name in PEERS)
    counts = "–"
    if shutil.which("valgrind"):
        with open(path, "wb") as file:
            file.write(source(kind, COUNTED, asked.seed))
        tokens = answer_of(peer, path, 1)["tokens"]
        none, *of_peers = [page.instructions([peer, path, "once", name])
                           for name in ("none", *PEERS)]
        counts = " / ".join(f"{(count - none) / tokens:.0f}" for count in of_peers)
    os.remove(path)
    return [kind, f"{hand:.1f}", f"{ours / hand:.2f}", counts]


def write(rows: list[list[str]], asked: page.Asked) -> None:
    """Writes the table of docs/SPEED.md."""
    head = ["operands", "hand-written lexer, ns", "ours", "instructions: hand-written / ours"]
    page.write("bench/tokens.py", [
        f"Measured on {asked.measured_on()}", "",
        "A source is lines such as `total = 12 + (0x1F, left);`. Times are relative to a "
        "hand-written lexer, and instructions are per token.", "", *page.table(head, rows), ""])


def main() -> int:
    """The command line."""
    asked = page.asked(__doc__, "bytes", size=10_000_000, rounds=25)
    page.need(os.environ.get("RT", "rt"), "rustc")
    peer = driver()
    rows = []
    for kind in OPERANDS:
        rows.append(measured(peer, kind, asked))
        print("\t".join(rows[-1]), flush=True)
    write(rows, asked)
    return 0


if __name__ == "__main__":
    sys.exit(page.ended(main))
