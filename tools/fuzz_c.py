#!/usr/bin/env python3
"""Runs the C calls beside the reference of the grammar: make check-c.

    python3 tools/fuzz_c.py [--parses N] [--formats N] [--seed N]

Four parts: random parses under random formats, with the texts of tools/fuzz_lines.py; formats of
random bytes; all texts of up to three bytes under the formats of SHORT, as i8 and as u64; and
columns, beside each field read by itself. Each call is compared in status, place and number, and at
a fault the number has to be the one from before. Where some differ it prints the first of them, and
ends with status 1. The seed that it prints first gives the same run again.
"""
from __future__ import annotations

import argparse
import itertools
import os
import random
import struct
import subprocess
import sys
import tempfile
from dataclasses import replace
from typing import List, Optional, Tuple

from c_calls import (BEFORE, NUL_BITS, NUMBERS, RESERVED, Answer, CFormat, Library, c_format,
                     compare_rows, expected)
from fuzz_lines import CAPITALS, DOUBTFUL_BYTES, NAMES, ODD_RADIXES, RADIXES, SMALL, Lines
from row_data import TOP, positive
from reference import (BYTE_FIELDS, FLAG_FIELDS, JSON, STANDARD, TYPES, Format, format_fault,
                       number_in_front, parse)
from reference_lines import LITERAL, Session

MOST_TOLD = 5
# Under each of these all texts of up to three bytes are tried.
SHORT: List[Format] = [
    STANDARD, JSON, LITERAL,
    Format(mantissa_radix=16, base_prefix=ord("x"), base_suffix=ord("h")),
    Format(digit_separator=0, integer_internal_digit_separator=True,
           integer_trailing_digit_separator=True),
    Format(mantissa_radix=3, required_mantissa_digits=False, required_mantissa_sign=True),
]


class Comparison:
    """Counts what was compared, and gathers what differs."""

    def __init__(self, library: Library) -> None:
        self.library = library
        self.parses = self.values = self.formats = 0
        self.wrong: List[str] = []

    def same(self, what: object, wanted: object, answered: object) -> None:
        """Notes a difference."""
        if wanted != answered:
            self.wrong.append(f"{what}: {answered}, and not {wanted}")

    def parse(self, name: bytes, text: bytes, is_partial: bool,
              form: Format, made: CFormat) -> None:
        """A parse under a format, and under none where it is the standard one."""
        answer = format_fault(form) or parse(form, TYPES[name], text, is_partial)
        wanted = expected(answer, text, is_partial)
        self.parses += 1
        self.values += wanted.status == "Ok"
        what = (name.decode(), text, is_partial, form)
        self.same(what, wanted, self.library.parse(name.decode(), text, is_partial, made))
        if form == STANDARD:
            self.same(what, wanted, self.library.parse(name.decode(), text, is_partial))
        if is_partial:
            self.front(name, text, form, made)

    def front(self, name: bytes, text: bytes, form: Format, made: CFormat) -> None:
        """The number in front of a text, in the same two ways."""
        answer = format_fault(form) or number_in_front(form, TYPES[name], text)
        wanted = expected(answer, text, True)
        for under in (made, None) if form == STANDARD else (made,):
            answered = self.library.answer(name.decode(), "_front", text, under)
            self.same((name.decode(), text, "front", form), wanted, answered)

    def format(self, form: Format, made: CFormat) -> None:
        """What is wrong with a format."""
        fault = format_fault(form)
        self.formats += 1
        self.same(form, fault.name if fault else "Ok", self.library.format_error(made))


def random_parses(comparison: Comparison, chance: random.Random, wanted: int) -> None:
    """The lines that the program is tried with, as calls."""
    batches = Lines(chance, False)
    session = Session()
    end = comparison.parses + wanted
    while comparison.parses < end and len(comparison.wrong) < MOST_TOLD:
        for line in batches.batch():
            session.answer(line)
            form, made = session.form, c_format(session.form, chance.randint(1, 255))
            words = line.split(b" ", 2)
            if words[0] == b"f":
                comparison.format(form, made)
            elif words[0] in (b"c", b"p") and len(words) == 3 and words[1] in TYPES:
                comparison.parse(words[1], words[2], words[0] == b"p", form, made)


def punctuation_of(made: CFormat, name: str) -> Optional[int]:
    """The byte of punctuation that a format asks for, by the words of the header."""
    byte: int = getattr(made, name)
    return byte if byte or made.nul_is_punctuation & NUL_BITS[name] else None


def random_format(chance: random.Random) -> Tuple[CFormat, Format]:
    """A format of random bytes, and what it asks for."""
    made = CFormat(mantissa_radix=chance.choice(RADIXES + ODD_RADIXES))
    for name in BYTE_FIELDS:
        setattr(made, name, chance.choice((0, 0, chance.choice(chance.choice(DOUBTFUL_BYTES)))))
    made.nul_is_punctuation = chance.choice((0, chance.randrange(8)))
    for name in FLAG_FIELDS:
        setattr(made, name, chance.choice((0, 0, chance.randrange(256))))
    punctuation = {name: punctuation_of(made, name) for name in BYTE_FIELDS}
    flags = {name: getattr(made, name) != 0 for name in FLAG_FIELDS}
    return made, replace(Format(mantissa_radix=made.mantissa_radix, **flags), **punctuation)


def random_formats(comparison: Comparison, chance: random.Random, wanted: int) -> None:
    """Formats of random bytes, and a short text under each, as it is and with an unknown field."""
    for _ in range(wanted):
        if len(comparison.wrong) >= MOST_TOLD:
            return
        made, form = random_format(chance)
        comparison.format(form, made)
        text = bytes(chance.choices(b"0129+-_xhXH\0aZ", k=chance.randint(0, 6)))
        comparison.parse(chance.choice(NAMES), text, chance.random() < 0.5, form, made)
        if chance.random() < 0.5:
            made.reserved[chance.randrange(RESERVED)] = chance.randint(1, 255)
        else:
            made.nul_is_punctuation |= chance.randrange(8, 256, 8)
        comparison.same(form, "UnknownField", comparison.library.format_error(made))
        answered = comparison.library.parse("u8", text, chance.random() < 0.5, made)
        comparison.same(form, Answer("UnknownField", 0, BEFORE), answered)


# ---- short texts

Classes = Tuple[bytes, List[int]]


def classes_under(form: Format) -> Classes:
    """A class for each byte, and a byte of each class.

    The bytes that the grammar tells apart under the format have a class each: signs, digits, the
    format's own bytes and the letters of literal prefixes, these in both cases. All others are one
    class.
    """
    fields = (form.digit_separator, form.base_prefix, form.base_suffix)
    punctuation = bytes(byte for byte in fields if byte is not None)
    radix = 16 if form.literal_prefixes else form.mantissa_radix
    known = set(b"+-" + SMALL[:radix] + CAPITALS[:radix] + punctuation + punctuation.swapcase())
    known |= set(b"xXoObB") if form.literal_prefixes else set()
    ranks = {byte: rank for rank, byte in enumerate(sorted(known), 1)}
    other = next(byte for byte in range(255, -1, -1) if byte not in known)
    return bytes(ranks.get(byte, 0) for byte in range(256)), [other] + sorted(known)


def short_answer(form: Format, name: bytes, text: bytes, is_partial: bool) -> bytes:
    """An entry of the tables that tests/c/short_texts.c reads."""
    answer = expected(parse(form, TYPES[name], text, is_partial), text, is_partial)
    return struct.pack("=IIq", NUMBERS[answer.status], answer.place, answer.number)


def answers_to_short_texts(form: Format) -> bytes:
    """The tables that tests/c/short_texts.c reads, for one format."""
    class_of, members = classes_under(form)
    tables = [bytes(c_format(form)), class_of, struct.pack("=I", len(members))]
    for name, is_partial, length in itertools.product((b"i8", b"u64"), (False, True), range(4)):
        texts = map(bytes, itertools.product(members, repeat=length))
        tables += [short_answer(form, name, text, is_partial) for text in texts]
    return b"".join(tables)


def by_programs(comparison: Comparison, library: str, seed: int) -> None:
    """What is too much for Python, by programs in C: short texts under SHORT, and columns."""
    runs: List[Tuple[str, List[str], bytes]] = [
        ("short_texts", [], answers_to_short_texts(form)) for form in SHORT]
    with tempfile.TemporaryDirectory() as folder:
        for name, words, given in [*runs, ("random_columns", ["2000000", "2000", str(seed)], b"")]:
            program, source = os.path.join(folder, name), f"{TOP}/tests/c/{name}.c"
            if not os.path.exists(program):
                subprocess.run([os.environ.get("CC", "cc"), "-std=c99", "-O2", "-Wall", "-Wextra",
                                f"-I{TOP}/include", source, library, "-o", program], check=True)
            done = subprocess.run([program, *words], input=given, stdout=subprocess.PIPE)
            said = done.stdout.decode(errors="replace").strip()
            print(f"fuzz_c: {said}", flush=True)
            if done.returncode or not said:
                comparison.wrong.append(f"{name}: {said}")


def main() -> int:
    """The command line."""
    parser = argparse.ArgumentParser(
        description=__doc__, formatter_class=argparse.RawDescriptionHelpFormatter)
    parser.add_argument("--parses", type=positive, default=1_000_000)
    parser.add_argument("--formats", type=positive, default=100_000)
    parser.add_argument("--seed", type=int, default=random.SystemRandom().randrange(10 ** 9))
    asked = parser.parse_args()
    print(f"fuzz_c: seed {asked.seed}", flush=True)
    library = os.path.join(TOP, "build", "libjadvolni")
    comparison = Comparison(Library(f"{library}.so"))
    print(f"fuzz_c: {compare_rows(comparison.library)}", flush=True)
    chance = random.Random(asked.seed)
    random_parses(comparison, chance, asked.parses)
    random_formats(comparison, chance, asked.formats)
    by_programs(comparison, f"{library}.a", asked.seed)
    print("".join(f"fuzz_c: {line}\n" for line in comparison.wrong), end="")
    print(f"fuzz_c: {comparison.parses} parses, of which {comparison.values} gave a number, and "
          f"{comparison.formats} formats: {len(comparison.wrong)} differ")
    return 1 if comparison.wrong else 0


if __name__ == "__main__":
    sys.exit(main())
