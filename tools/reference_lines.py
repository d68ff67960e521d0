#!/usr/bin/env python3
"""A reference implementation of the program's lines, to compare the built program with.

    python3 tools/reference_lines.py            answers the lines of standard input
    python3 tools/reference_lines.py --check    compares it with the test vectors and known runs

Written from docs/GRAMMAR.md and crates/lexint/README.md, as tools/reference.py says, which reads
the texts. Needs Python 3.9 and nothing else.
"""
from __future__ import annotations

import sys
from dataclasses import replace
from typing import Iterator, List, NamedTuple, Optional, Tuple

import row_data
import run_rows
from reference import (BYTE_FIELDS, FLAG_FIELDS, JSON, STANDARD, TYPES, WORTH, Answer, Fault,
                       Format, Value, format_fault, parse)

# ---- tokens

LITERAL = Format(digit_separator=ord("_"), integer_internal_digit_separator=True,
                 integer_consecutive_digit_separator=True, literal_prefixes=True)
WORD_BYTES = frozenset(WORTH) | {ord("_")}
BLANKS = b" \t\n\r"


class Token(NamedTuple):
    """A token: the words that name it, and its places."""

    name: str
    start: int
    stop: int


def word_stop(source: bytes, start: int) -> int:
    """The end of the longest stretch of letters, digits and `_` from the start on."""
    places = range(start, len(source))
    return next((place for place in places if source[place] not in WORD_BYTES), len(source))


def token_at(source: bytes, start: int) -> Token:
    """The token that begins at the place."""
    first = source[start]
    if first in b"0123456789":
        answer = parse(LITERAL, TYPES[b"u128"], source[start:], True)
        if isinstance(answer, Value):
            return Token(f"number {answer.value}", start, start + answer.stop)
        return Token(f"fault {answer.name} {answer.place}", start, word_stop(source, start))
    if first in WORD_BYTES:
        return Token("word", start, word_stop(source, start))
    return Token("byte", start, start + 1)


def tokens_of(source: bytes) -> Iterator[Token]:
    """The tokens of a source, without the blanks between them."""
    place = 0
    while place < len(source):
        if source[place] in BLANKS:
            place += 1
        else:
            token = token_at(source, place)
            yield token
            place = token.stop


# ---- the program's lines

TRUTH = {b"true": True, b"false": False}


def shown(answer: Answer, is_partial: bool) -> str:
    """An answer as a line."""
    if isinstance(answer, Value):
        return f"ok {answer.value} {answer.stop}\n" if is_partial else f"ok {answer.value}\n"
    return f"err {answer.name}\n" if answer.place is None else f"err {answer.name} {answer.place}\n"


def with_field(form: Format, field: str, value: bytes) -> Optional[Format]:
    """The format behind an `f` line; None where that is a bad line."""
    if field == "mantissa_radix":
        radix = parse(STANDARD, TYPES[b"u8"], value, False)
        return replace(form, mantissa_radix=radix.value) if isinstance(radix, Value) else None
    if field in BYTE_FIELDS and (value == b"none" or len(value) == 1):
        return replace(form, **{field: None if value == b"none" else value[0]})
    if value not in TRUTH:
        return None
    truth = TRUTH[value]
    if field == "required_digits":
        return replace(form, required_integer_digits=truth, required_mantissa_digits=truth)
    if field == "no_multi_digit":  # an option, on which no answer depends
        return form
    return replace(form, **{field: truth}) if field in FLAG_FIELDS else None


class Session:
    """A run of the program: the settings, as the lines so far have left them."""

    def __init__(self) -> None:
        """The settings are those of the standard format."""
        self.form = STANDARD
        self.fault: Optional[Fault] = None

    def answer(self, line: bytes) -> str:
        """What the program writes for a line, with its line feed."""
        command, space, rest = line.partition(b" ")
        if line == b"r":
            self.form, self.fault = STANDARD, None
            return "ok\n"
        if space and command in (b"c", b"p"):
            return self.parsed(rest, command == b"p")
        if space and command == b"f":
            return self.changed(rest)
        if space and command == b"t":
            tokens = [f"{token.name} {token.start} {token.stop}\n" for token in tokens_of(rest)]
            return "".join([*tokens, "end\n"])
        return "bad line\n"

    def parsed(self, rest: bytes, is_partial: bool) -> str:
        """The answer to a type and a text."""
        name, space, text = rest.partition(b" ")
        kind = TYPES.get(name)
        if not space or kind is None:
            return "bad line\n"
        return shown(self.fault or parse(self.form, kind, text, is_partial), is_partial)

    def changed(self, rest: bytes) -> str:
        """The answer to a field and a value."""
        field, space, value = rest.partition(b" ")
        form = with_field(self.form, field.decode("latin-1"), value) if space else None
        if form is None:
            return "bad line\n"
        self.form, self.fault = form, format_fault(form)
        return "ok\n"


def lines_of(source: bytes) -> List[bytes]:
    """The pieces between line feeds, without an empty last one."""
    lines = source.split(b"\n")
    return lines if lines[-1] else lines[:-1]


def output_of(source: bytes) -> str:
    """What the program writes for an input."""
    session = Session()
    return "".join(session.answer(line) for line in lines_of(source))


# ---- the reference itself against what is known

# Longer runs of tools/lines.txt would take it minutes.
LONGEST = 10_000


def form_of(row: row_data.Row) -> Format:
    """The format of a row of tools/rows.txt."""
    return JSON if isinstance(row.format, str) else replace(STANDARD, **dict(row.format))


def answer_of_row(row: row_data.Row) -> row_data.Answer:
    """The reference's answer to a row of tools/rows.txt."""
    form = form_of(row)
    answer: Optional[Answer] = format_fault(form)
    if answer is None and row.parser != "format":
        answer = parse(form, TYPES[row.type.encode()], row.text, row.parser == "partial")
    if answer is None:
        return row_data.Answer("valid", ())
    if isinstance(answer, Fault):
        return row_data.Answer(answer.name, () if answer.place is None else (answer.place,))
    return row_data.Answer("Ok", answer if row.parser == "partial" else answer[:1])


Judged = Tuple[object, object, object]


def judged_rows() -> Iterator[Judged]:
    """Each row of tools/rows.txt, as its question, the answer here and the answer there."""
    for group in row_data.groups_of(row_data.DATA):
        yield from ((row.question(), answer_of_row(row), row.answer) for row in group.rows)


def judged_runs() -> Iterator[Judged]:
    """The runs of tools/lines.txt, as their input, the output here and the output there."""
    runs = [run for run in run_rows.read_runs() if len(run.input) <= LONGEST]
    return ((run.input, output_of(run.input), run.output.decode("latin-1")) for run in runs)


def check() -> int:
    """Compares the reference with the test vectors and the runs, and answers the exit status."""
    judged = list(judged_rows()) + list(judged_runs())
    wrong = [one for one in judged if one[1] != one[2]]
    for question, answer, wanted in wrong:
        print(f"reference_lines: {question}: {answer!r}, and not {wanted!r}")
    print(f"reference_lines: {len(judged)} rows and runs, {len(wrong)} answered in another way")
    return 1 if wrong else 0


def main() -> int:
    """The command line."""
    if sys.argv[1:] == ["--check"]:
        return check()
    if sys.argv[1:]:
        print(__doc__, file=sys.stderr)
        return 2
    sys.stdout.write(output_of(sys.stdin.buffer.read()))
    sys.stdout.flush()
    return 0


if __name__ == "__main__":
    try:
        sys.exit(main())
    except OSError as error:
        sys.exit(f"tools/reference_lines.py: {error}")
