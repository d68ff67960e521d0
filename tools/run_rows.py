#!/usr/bin/env python3
"""Has the built program answer the test vectors, and whole inputs.

    tools/run_rows.py [PROGRAM..]

With no PROGRAM it takes what a gate has built, crates/lexint/out/lexint and lexint.by-rattle. Each
row of tools/rows.txt and tools/languages.txt is asked with `no_multi_digit` off and on. A row of a
language is asked under its fields, and a format that breaks no rule has to read -0, as every valid
format does. Each input of tools/lines.txt is a run of its own. It prints each answer that isn't as
the data have it, and last how many there were; where one is wrong, the status is 1.
"""
from __future__ import annotations

import os
import re
import subprocess
import sys
from typing import Dict, Iterator, List, NamedTuple, Tuple

from row_data import (BUILT, BYTES, DATA, LANGUAGES, TOP, Fields, Group, Row, groups_of,
                      read_text, runnable)

SECONDS = 60
WHOLE_INPUTS = os.path.join(TOP, "tools", "lines.txt")

PIECE = r'"(?:[^"\\]|\\.)*"(?:\*\d+)?'
TEXT = rf"{PIECE}(?: {PIECE})*"
INPUT = re.compile(rf"(  )?({TEXT}) +\| ({TEXT})")
HEADING = re.compile(r"== (\w+)")


class Run(NamedTuple):
    """An input and what has to be written for it, and the line of the data where both begin."""

    group: str
    line: int
    input: bytes
    output: bytes


def read_runs() -> List[Run]:
    """The runs over whole inputs."""
    group, runs = "", list[Run]()
    with open(WHOLE_INPUTS, encoding="ascii") as data:
        for number, line in enumerate(data, 1):
            heading, row = HEADING.fullmatch(line.rstrip("\n")), INPUT.fullmatch(line.rstrip("\n"))
            if heading:
                group = heading[1]
            elif row and row[1] and runs:
                above = runs.pop()
                runs.append(above._replace(input=above.input + read_text(row[2]),
                                           output=above.output + read_text(row[3])))
            elif row and not row[1]:
                runs.append(Run(group, number, read_text(row[2]), read_text(row[3])))
            elif line.strip() and not line.startswith("#"):
                sys.exit(f"{WHOLE_INPUTS}:{number}: no row: {line.rstrip()}")
    return runs


def output_of(program: str, given: bytes) -> bytes:
    """What the program writes for an input."""
    ran = subprocess.run([program], input=given, stdout=subprocess.PIPE, timeout=SECONDS)
    if ran.returncode:
        sys.exit(f"{program} ended with status {ran.returncode}")
    return ran.stdout


def wrong_outputs(program: str, runs: List[Run]) -> List[str]:
    """What the program writes otherwise than the data have it."""
    written = [(run, output_of(program, run.input)) for run in runs]
    return [f"{program}: line {run.line}, {run.group}: {output[:80]!r}, and not {run.output[:80]!r}"
            for run, output in written if output != run.output]


def presets_by_name(groups: List[Group]) -> Dict[str, Fields]:
    """The fields of each preset, by its name."""
    return {group.name: group.fields for group in groups if group.fields is not None}


def field_line(name: str, value: int) -> bytes:
    """The line that sets a field."""
    if name in BYTES.values():
        return b"f %s %c" % (name.encode(), value)
    return f"f {name} {str(value).lower()}".encode()


def question_of(row: Row) -> bytes:
    """The line that asks a row."""
    if row.parser == "format":
        return b"c i8 -0"
    return f"{row.parser[0]} {row.type} ".encode() + row.text


def answer_of(row: Row) -> bytes:
    """The line that answers a row."""
    name, numbers = row.answer
    if name == "valid":
        return b"ok 0"
    words = ["ok" if name == "Ok" else f"err {name}", *map(str, numbers)]
    return " ".join(words).encode()


def lines_of(row: Row, presets: Dict[str, Fields]) -> Iterator[Tuple[bytes, bytes]]:
    """The lines that ask a row with each setting of no_multi_digit, each with its answer."""
    fields = presets[row.format] if isinstance(row.format, str) else row.format
    question = question_of(row), answer_of(row)
    yield b"r", b"ok"
    yield from ((field_line(*field), b"ok") for field in fields)
    yield from (question, (b"f no_multi_digit true", b"ok"), question)


def wrong_answers(program: str, rows: List[Row], presets: Dict[str, Fields]) -> List[str]:
    """What the program answers otherwise than the rows do."""
    asked = [(row, line, wanted) for row in rows for line, wanted in lines_of(row, presets)]
    answers = output_of(program, b"\n".join(line for _, line, _ in asked)).split(b"\n")[:-1]
    if len(answers) != len(asked):
        return [f"{program}: {len(answers)} answers to {len(asked)} lines"]
    return [f"{program}: {row.format}: {line[:80]!r}: {answer!r}, and not {wanted!r}"
            for (row, line, wanted), answer in zip(asked, answers) if answer != wanted]


def main(programs: List[str]) -> int:
    """Asks each program, and answers the exit status."""
    programs = [runnable(program, "test" if program == BUILT[1] else "lexint")
                for program in programs]
    groups = groups_of(DATA, LANGUAGES)
    rows = [row for group in groups for row in group.rows]
    presets = presets_by_name(groups)
    runs = read_runs()
    wrong = [said for program in programs
             for said in [*wrong_answers(program, rows, presets), *wrong_outputs(program, runs)]]
    print(*wrong, f"{len(rows)} rows and {len(runs)} whole inputs of {len(programs)} programs, "
          f"{len(wrong)} wrong answers", sep="\n")
    return 1 if wrong else 0


if __name__ == "__main__":
    sys.exit(main([os.path.abspath(path) for path in sys.argv[1:]] or BUILT))
