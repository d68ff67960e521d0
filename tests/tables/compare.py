#!/usr/bin/env python3
"""Runs tables through the C call, beside the slow reading of tables: make fuzz-tables.

    tests/tables/compare.py [--tables N] [--seed N]    random tables
    tests/tables/compare.py --all [--longest N]        all short texts, under each setting
        [--each N]                                     or of their questions each N-th

Answers, arrays and bits have to be those of reading.py, and the arrays and bits as before where
nothing was put. Each table is asked for twice: up to its first fault, and with bad rows skipped,
and then also where its rows are. answers.c asks the library, build/libjadvolni.a, in several ways,
and all of them have to get one answer. It prints what differs, and ends with status 1 then.
"""
from __future__ import annotations

import argparse
import ctypes
import functools
import itertools
import os
import random
import struct
import subprocess
import sys
import tempfile
from typing import List, Optional, Sequence, Tuple

import reading
from questions import KINDS, Question, random_questions, short_questions
from reading import TEXTS, TOP, Bad, CellValue, Read, Target

sys.path.insert(0, os.path.join(TOP, "tools"))

from c_calls import NUMBERS, CFormat, c_format  # noqa: E402
from row_data import made, positive  # noqa: E402

MOST_SHOWN = 5
# How many questions one run of the program answers.
BATCH = 20000
# What arrays and bits have before.
NUMBERS_BEFORE, BITS_BEFORE, KNOWN_BEFORE = b"\x77", b"\x5a", b"\x33"
QUESTION, ANSWER = struct.Struct("=HHHBBBBBBBB"), struct.Struct("=5Q")
BAD_ROW, ROW_PLACE = struct.Struct("=I20x5Q"), struct.Struct("=3Q")
# Of how many rows it is asked where they are.
PLACES_ASKED = 5
CODES = {**dict(zip(KINDS, "BHIQbhiq")), TEXTS: "QQQ"}
# What a text has before: its flag is one byte, and the program widens it.
TEXT_BEFORE = 2 * 8 * NUMBERS_BEFORE + NUMBERS_BEFORE + bytes(7)
# In the order of their numbers in answers.c, where 0 is a column that isn't read.
TARGET_TYPES = (b"", *KINDS, TEXTS)
# A row and a column.
Place = Tuple[int, int]


# ---- the program

def compiled(folder: str) -> str:
    """The program that asks the library."""
    program = os.path.join(folder, "answers")
    source = f"{TOP}/tests/tables/answers.c"
    library = made(f"{TOP}/build/libjadvolni.a", "lib")
    subprocess.run([os.environ.get("CC", "cc"), "-std=c11", "-O2", "-Wall", "-Wextra", "-Werror",
                    f"-I{TOP}/include", source, library, "-o", program], check=True)
    return program


@functools.lru_cache(maxsize=None)
def target_written(target: Optional[Target]) -> bytes:
    """A target, as the program reads it. What isn't looked at has bytes that would be refused.

    Of a column that isn't read, only the radix is looked at, of texts nothing, and of integers
    neither the point nor the flag.
    """
    if target is None:
        return bytes([0, 0, 255, 255, 255, 0]) + b"\xff" * (ctypes.sizeof(CFormat) - 1)
    head = [TARGET_TYPES.index(target.type), target.may_miss]
    if target.keeps_texts():
        return bytes(head) + b"\xff" * (3 + ctypes.sizeof(CFormat))
    fixed = target.fixed
    if fixed is None:
        return bytes([*head, 255, 0, 255, *bytes(c_format(target.form))])
    form = c_format(fixed.integer)
    if fixed.integer.required_mantissa_digits and target.may_miss:
        form.mantissa_radix = 0  # which is 10, and a digit required: half of them are written so
    point = 0 if fixed.point == ord(".") else fixed.point
    return bytes([*head, point, fixed.places, fixed.takes_fewer, *bytes(form)])


def written(question: Question) -> bytes:
    """A question, as the program reads it."""
    text, is_last, dialect, targets, rows, room, cuts, bad_room = question
    flags = (dialect.has_returns | dialect.has_quotes << 1 | dialect.allows_blanks << 2
             | dialect.skips_empty_rows << 3 | is_last << 4 | (dialect.widths is not None) << 5
             | dialect.is_records << 6 | (bad_room is not None) << 7)
    asked = QUESTION.pack(len(text), cuts.start, len(cuts), dialect.separator, flags,
                          len(dialect.missing), dialect.columns, rows, room, bad_room or 0,
                          dialect.allows_returns)
    widths = struct.pack(f"={dialect.columns}Q", *(dialect.widths or dialect.columns * [0]))
    return asked + b"".join(map(target_written, targets)) + widths + dialect.missing + text


def answers(program: str, questions: Sequence[Question]) -> bytes:
    """What the program answers: nothing where it ends early, as at a page that it may not touch."""
    ran = subprocess.run([program], input=b"".join(map(written, questions)), stdout=subprocess.PIPE)
    return ran.stdout if ran.returncode == 0 else b""


# ---- the two beside each other

def put(said: bytearray, start: int, question: Question, place: Place, value: CellValue) -> None:
    """Puts a value and its bit where a column's array and bits start."""
    row, column = place
    target = question.targets[column]
    assert target is not None
    code = "=" + CODES[target.type]
    size = struct.calcsize(code)
    missing = len(CODES[target.type]) * (0,)
    words = missing if value is None else value if isinstance(value, tuple) else (value,)
    struct.pack_into(code, said, start + row * size, *words)
    if target.may_miss:
        byte, mask = start + question.room * size + row // 8, 1 << row % 8
        said[byte] = said[byte] & ~mask | (0 if value is None else mask)


def with_numbers(said: bytearray, question: Question, numbers: reading.Numbers) -> bytearray:
    """The same, and behind it the arrays and bits."""
    starts = []
    for target in question.targets:
        starts.append(len(said))
        if target is not None:
            size = struct.calcsize("=" + CODES[target.type])
            said += question.room * (TEXT_BEFORE if target.keeps_texts() else NUMBERS_BEFORE * size)
            said += BITS_BEFORE * ((question.room + 7) // 8 if target.may_miss else 0)
    for place, number in numbers.items():
        put(said, starts[place[1]], question, place, number)
    return said


def bad_rows(question: Question, bad: Sequence[Bad]) -> bytes:
    """What is reported of bad rows, and where the first rows are."""
    room = question.bad_room or 0
    said = struct.pack("=Q", len(bad))
    for row in bad[:room]:
        said += BAD_ROW.pack(NUMBERS[row.wrong.fault], row.wrong.row, row.wrong.column,
                             row.wrong.place, row.start, row.stop)
    said += KNOWN_BEFORE * (BAD_ROW.size * (room - len(bad[:room])))
    places = reading.row_places(question.text, question.dialect)[:PLACES_ASKED]
    places += (PLACES_ASKED - len(places)) * [(len(question.text),) * 2]
    return said + b"".join(ROW_PLACE.pack(NUMBERS["Ok"], *place) for place in places)


def expected(question: Question) -> bytes:
    """What the program has to answer."""
    text, is_last, dialect, targets, rows, *_ = question
    if question.bad_room is not None:
        read, numbers = reading.read_skipping(text, is_last, dialect, targets, rows)
        said = bytearray(ANSWER.pack(0, NUMBERS["Ok"], 0, read.rows, read.stop))
        return bytes(with_numbers(said, question, numbers)) + bad_rows(question, read.bad)
    answer, numbers = reading.read_part(text, is_last, dialect, targets, rows)
    if isinstance(answer, Read):
        said = bytearray(ANSWER.pack(0, NUMBERS["Ok"], 0, answer.rows, answer.stop))
    else:
        said = bytearray(ANSWER.pack(0, NUMBERS[answer.fault], answer.column, answer.row,
                                     answer.place))
    return bytes(with_numbers(said, question, numbers))


def difference(program: str, question: Question) -> str:
    """What differs at one question; no word where nothing does."""
    said, wanted = answers(program, [question]), expected(question)
    if said == wanted:
        return ""
    if len(said) != len(wanted):
        return f"{question}: no answer"
    both = " and not ".join(f"{ANSWER.unpack_from(one)} {one[ANSWER.size:].hex()}"
                            for one in (said, wanted))
    return f"{question}: {both}"


def differences(program: str, questions: Sequence[Question], wanted: Sequence[bytes]) -> List[str]:
    """What differs."""
    if answers(program, questions) == b"".join(wanted):
        return []
    found = filter(None, (difference(program, question) for question in questions))
    return list(itertools.islice(found, MOST_SHOWN)) or ["only together they differ"]


def main() -> int:
    """The command line."""
    parser = argparse.ArgumentParser(
        description=__doc__, formatter_class=argparse.RawDescriptionHelpFormatter)
    parser.add_argument("--all", action="store_true")
    parser.add_argument("--longest", type=positive, default=4)
    parser.add_argument("--each", type=positive, default=1)
    parser.add_argument("--tables", type=positive, default=100_000)
    parser.add_argument("--seed", type=int, default=random.SystemRandom().randrange(10 ** 9))
    given = parser.parse_args()
    print(f"compare: texts of up to {given.longest} bytes, each {given.each}" if given.all
          else f"compare: seed {given.seed}", flush=True)
    asked = (itertools.islice(short_questions(given.longest), 0, None, given.each) if given.all
             else itertools.islice(random_questions(random.Random(given.seed)), given.tables))
    count = well = 0
    found: List[str] = []
    with tempfile.TemporaryDirectory() as folder:
        program = compiled(folder)
        while not found and (questions := list(itertools.islice(asked, BATCH))):
            wanted = [expected(question) for question in questions]
            found = differences(program, questions, wanted)
            count += len(questions)
            well += sum(ANSWER.unpack_from(one)[1] == NUMBERS["Ok"] for one in wanted)
    print("".join(f"compare: {line}\n" for line in found), end="")
    print(f"compare: {count} tables, of which {well} are read without a fault: {len(found)} differ")
    return 1 if found else 0


if __name__ == "__main__":
    sys.exit(main())
