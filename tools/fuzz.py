#!/usr/bin/env python3
"""Runs the built program beside the reference of the grammar, until they differ.

    python3 tools/fuzz.py [--program PATH] [--seed N] [--lines N]    random lines
    python3 tools/fuzz.py [--program PATH] --all [--longest N]       all short texts
    python3 tools/fuzz.py [--program PATH] --edges                   the edges of lengths and types

The seed is printed, and the same seed gives the same lines. A difference is made as small as it can
be and printed, and the status is then 1.

Where the format is the standard one or differs from it in the radix alone, complete parses are also
compared with Python's `int`, and with Rust's `from_str_radix` by tests/from_str_radix.rs, where
there is a rustc.
"""
from __future__ import annotations

import argparse
import os
import random
import shutil
import subprocess
import sys
import tempfile
from collections import Counter
from dataclasses import replace
from typing import Callable, Iterable, Iterator, List, NamedTuple, Optional, TypeVar

from fuzz_edges import edge_runs
from fuzz_lines import Lines
from fuzz_short import short_runs
from row_data import BUILT, TOP, positive, runnable
from reference import STANDARD, TYPES
from reference_lines import Session

DRIVER = os.path.join(TOP, "tests", "from_str_radix.rs")
# How many lines a run gets: those of a line or two meet the ends of reads, long ones full buffers.
LINES_OF_RUNS = (1, 2, 5, 50, 1000, 20000, 20000)
SECONDS = 20
SHOWN = 1000  # characters of a wrong answer
DIGITS = b"0123456789abcdefghijklmnopqrstuvwxyz"
PLAIN = {radix: replace(STANDARD, mantissa_radix=radix) for radix in range(2, 37)}
LONGEST_INT = 4000  # digits; newer Pythons refuse more
RUST_FAULTS = {
    "err PosOverflow": "Overflow ", "err NegOverflow": "Underflow ", "err Empty": "Empty 0\n",
    "err InvalidDigit": "InvalidDigit ",
}


class Difference(NamedTuple):
    """An answer that is not the expected one: the line's number from 0, and who expected what."""

    number: int
    judge: str
    expected: str
    actual: str


class Question(NamedTuple):
    """A complete parse that int and from_str_radix can be asked too, with the program's answer."""

    number: int
    name: bytes
    radix: int
    text: bytes
    answer: str


# ---- the judges

def source_of(lines: List[bytes]) -> bytes:
    """The input of these lines. The last one has no line feed where its length is odd."""
    source = b"\n".join(lines)
    return source if lines and len(lines[-1]) % 2 else source + b"\n" * bool(lines)


def int_expects(question: Question) -> Optional[str]:
    """How the answer begins by Python's `int`; None where that reads other texts.

    `int` takes blanks, `_` and prefixes, so it is asked for digits with a sign alone. It also takes
    a minus where the type is unsigned: there the program has no sign, but a byte that is no digit.
    """
    kind = TYPES[question.name]
    negative = question.text[:1] == b"-"
    digits = question.text[1:] if question.text[:1] in (b"+", b"-") else question.text
    if not 0 < len(digits) <= LONGEST_INT or (negative and not kind.signed):
        return None
    if not set(digits.lower()) <= set(DIGITS[:question.radix]):
        return None
    value = int(question.text, question.radix)
    # said anew here, so that the reference's own ends of the types are compared as well
    limit = 2 ** (kind.bits - kind.signed)
    if value >= limit:
        return "err Overflow "
    return "err Underflow " if value < -limit else f"ok {value}\n"


def rust_expects(question: Question, said: str) -> Optional[str]:
    """How the answer begins by what `from_str_radix` says; None where it says nothing.

    One thing differs: a sign alone is an InvalidDigit there, and Empty behind the sign here. Both
    take a plus at every type and a minus at the signed ones alone, both read `-0` as 0, and both
    tell an overflow and no byte behind it.
    """
    if said == "none":
        return None
    if said.startswith("ok "):
        return said + "\n"
    signs = (b"+", b"-") if TYPES[question.name].signed else (b"+",)
    if said == "err InvalidDigit" and question.text in signs:
        return "err Empty 1\n"
    return "err " + RUST_FAULTS[said]


class Comparison:
    """The program beside its judges."""

    def __init__(self, program: str, driver: Optional[str]) -> None:
        """DRIVER: the compiled tests/from_str_radix.rs, if there is one."""
        self.program, self.driver = program, driver
        self.compared: Counter[str] = Counter()

    def run(self, command: str, source: bytes) -> str:
        """What the command writes, and behind it how it ended, where that isn't well."""
        try:
            done = subprocess.run([command], input=source, capture_output=True, timeout=SECONDS)
        except subprocess.TimeoutExpired:
            return f"no end in {SECONDS} seconds\n"
        output = done.stdout.decode("latin-1")
        if done.returncode or done.stderr:
            output += f"status {done.returncode} {done.stderr.decode('latin-1').strip()}\n"
        return output

    def difference(self, lines: List[bytes]) -> Optional[Difference]:
        """The first difference at these lines."""
        session = Session()
        expected: List[str] = []
        questions: List[Question] = []
        for number, line in enumerate(lines):
            expected.append(session.answer(line))
            # (a valid format, and the standard one but for its radix)
            is_plain = session.form == PLAIN.get(session.form.mantissa_radix)
            if is_plain and line.startswith(b"c "):
                questions += question_of(number, line, session, expected[-1])
        output = self.run(self.program, source_of(lines))
        if output != "".join(expected):
            return first_difference(expected, output)
        by_int = self.unexpected("int", questions, map(int_expects, questions))
        found = by_int or self.by_rust(questions)
        self.compared["reference"] += 0 if found else len(lines)
        return found

    def by_rust(self, questions: List[Question]) -> Optional[Difference]:
        """The first answer that isn't that of `from_str_radix`."""
        if self.driver is None:
            return None
        asked = [b"%s %d %s\n" % (question.name, question.radix, question.text)
                 for question in questions]
        said = self.run(self.driver, b"".join(asked)).splitlines()
        if len(said) != len(asked):
            sys.exit(f"fuzz: from_str_radix answered {len(said)} of {len(asked)} lines")
        return self.unexpected("from_str_radix", questions, map(rust_expects, questions, said))

    def unexpected(self, judge: str, questions: List[Question],
                   expected: Iterable[Optional[str]]) -> Optional[Difference]:
        """The first answer that doesn't begin as the judge expects."""
        for question, wanted in zip(questions, expected):
            if wanted is None:
                continue
            self.compared[judge] += 1
            if not question.answer.startswith(wanted):
                return Difference(question.number, judge, wanted, question.answer)
        return None


def question_of(number: int, line: bytes, session: Session, answer: str) -> List[Question]:
    """The question of a `c` line, where it is no bad line."""
    if answer == "bad line\n":
        return []
    _, name, text = line.split(b" ", 2)
    return [Question(number, name, session.form.mantissa_radix, text, answer)]


def first_difference(expected: List[str], output: str) -> Difference:
    """The first line whose answer isn't the expected one."""
    place = 0
    for number, wanted in enumerate(expected):
        if not output.startswith(wanted, place):
            lines = output[place:].splitlines(True)[:max(1, wanted.count("\n"))]
            return Difference(number, "reference", wanted, "".join(lines)[:SHOWN])
        place += len(wanted)
    return Difference(len(expected) - 1, "reference", "no more lines\n", output[place:][:SHOWN])


# ---- lines

def gathered(batches: Lines, length: int) -> List[bytes]:
    """The lines of one run: batches of that length together, or the end of one for a short run."""
    lines: List[bytes] = []
    while len(lines) < length:
        lines += batches.batch()
    return lines[-length:] if length < 50 else lines


def random_runs(seed: int, wanted: int) -> Iterator[List[bytes]]:
    """Runs of random batches, until there are as many lines as wanted."""
    chance = random.Random(seed)
    batches = Lines(chance, True)
    made = 0
    while made < wanted:
        lines = gathered(batches, min(chance.choice(LINES_OF_RUNS), wanted - made))
        made += len(lines)
        yield lines


# ---- the smallest lines at which a difference stays

Items = TypeVar("Items", bytes, List[bytes])


def without_stretches(items: Items, size: int, stays: Callable[[Items], bool]) -> Items:
    """The items without each stretch of that size that the difference doesn't need."""
    place = 0
    while place < len(items):
        fewer = items[:place] + items[place + size:]
        if stays(fewer):
            items = fewer
        else:
            place += size
    return items


def fewest(items: Items, stays: Callable[[Items], bool]) -> Items:
    """The items without any that the difference doesn't need, long stretches first."""
    size = len(items)
    while size:
        items = without_stretches(items, size, stays)
        size //= 2
    return items


def smallest(lines: List[bytes], stays: Callable[[List[bytes]], bool]) -> List[bytes]:
    """Lines of which the difference needs each, and then of each line the bytes that it needs."""
    lines = fewest(lines, stays)
    for number, line in enumerate(lines):
        front, behind = lines[:number], lines[number + 1:]
        lines = [*front, fewest(line, lambda fewer: stays([*front, fewer, *behind])), *behind]
    return lines


# ---- the run

def reproduced(source: bytes) -> str:
    """A printf that writes the source."""
    plain = set(range(32, 127)) - set(b"\\%'")
    names = {ord("\n"): "\\n", ord("%"): "%%", ord("\\"): "\\\\"}
    letters = (chr(byte) if byte in plain else names.get(byte, f"\\{byte:03o}") for byte in source)
    return f"printf '{''.join(letters)}'"


def tell(found: Difference, lines: List[bytes], comparison: Comparison) -> None:
    """Prints a difference at the smallest lines at which there is still one."""
    line = comparison.compared["reference"] + found.number + 1
    print(f"fuzz: a difference at line {line}; it is made smaller now", flush=True)
    first = next((number for number in range(found.number, -1, -1) if lines[number] == b"r"), 0)
    batch = lines[first:found.number + 1]
    failing = batch if comparison.difference(batch) else lines
    failing = smallest(failing, lambda fewer: comparison.difference(fewer) is not None)
    small = comparison.difference(failing)
    print(f"fuzz: {len(failing)} lines are enough for a difference:")
    print("".join(f"    {line!r}\n" for line in failing), end="")
    if small is not None:  # a program that answers now in one way and now in another has none
        print(f"    line {small.number + 1}: expected by {small.judge}: {small.expected!r}, "
              f"answered: {small.actual!r}")
    print(f"    {reproduced(source_of(failing))} | {comparison.program}")


def compiled_driver(folder: str) -> Optional[str]:
    """The driver of from_str_radix, compiled into the folder; None where there is no rustc, or no
    cc, by which that links."""
    lacking = [name for name in ("rustc", "cc") if shutil.which(name) is None]
    if lacking:
        print(f"fuzz: there is no {lacking[0]}, so from_str_radix is left out")
        return None
    driver = os.path.join(folder, "from_str_radix")
    subprocess.run(["rustc", "-O", "-o", driver, DRIVER], check=True)
    return driver


def compare_all(runs: Iterable[List[bytes]], comparison: Comparison) -> int:
    """Compares the runs, and answers the exit status."""
    for lines in runs:
        found = comparison.difference(lines)
        if found is not None:
            tell(found, lines, comparison)
            return 1
    counts = comparison.compared
    print(f"fuzz: {counts['reference']} lines and no difference; {counts['int']} answers were "
          f"compared with Python's int too, and {counts['from_str_radix']} with from_str_radix")
    return 0


def main() -> int:
    """The command line."""
    parser = argparse.ArgumentParser(
        description=__doc__, formatter_class=argparse.RawDescriptionHelpFormatter)
    parser.add_argument("--program", default=BUILT[0])
    parser.add_argument("--seed", type=int, default=random.SystemRandom().randrange(10 ** 9))
    kinds = parser.add_mutually_exclusive_group()
    kinds.add_argument("--lines", type=positive, default=200000)
    kinds.add_argument("--all", action="store_true", help="all short texts")
    kinds.add_argument("--edges", action="store_true", help="the edges of lengths and types")
    parser.add_argument("--longest", type=positive, default=5, help="how long short texts are")
    given = parser.parse_args()
    program = runnable(shutil.which(given.program) or given.program, "lexint")
    if given.all:
        print(f"fuzz: all texts of up to {given.longest} bytes", flush=True)
        runs = short_runs(given.longest, max(LINES_OF_RUNS))
    elif given.edges:
        print("fuzz: the edges of lengths and types", flush=True)
        runs = edge_runs(max(LINES_OF_RUNS))
    else:
        print(f"fuzz: seed {given.seed}", flush=True)
        runs = random_runs(given.seed, given.lines)
    with tempfile.TemporaryDirectory() as folder:
        return compare_all(runs, Comparison(program, compiled_driver(folder)))


if __name__ == "__main__":
    sys.exit(main())
