#!/usr/bin/env python3
"""Writes what jadvolni::from_chars has to answer to short texts, as records for tests/c/fronts.cpp.

All texts of up to three bytes of an alphabet are asked for under each format of fuzz_short.py, also
where no digit is required, and those of four under a few. The answers are those of
reference_lines.py: a digit was read where its reading has one.
"""
from __future__ import annotations

import dataclasses
import itertools
import struct
import sys
from typing import Iterator, Tuple

sys.dont_write_bytecode = True

import c_calls  # noqa: E402
from fuzz_short import FORMATS, NAMES, texts  # noqa: E402
from reference import (STANDARD, TYPES, Fault, Format, IntegerType, format_fault,  # noqa: E402
                       number_in_front)
from row_data import read_fields  # noqa: E402

NONE, NO_NUMBER, OUT_OF_RANGE = range(3)
BEFORE = 77
RECORD = struct.Struct("=32s8sQ4I")
# Under these texts of four bytes are asked for too: a sign, a prefix and a byte have room in them.
LONGER = ["digits-optional prefix=x separator=_ behind-prefix",
          "digits-optional literal-prefixes octal-zero separator=_ trailing"]


def front_of(form: Format, kind: IntegerType, text: bytes) -> Tuple[int, int, int]:
    """The fault, the place where reading stopped and the value."""
    answer = format_fault(form) or number_in_front(form, kind, text)
    if isinstance(answer, Fault):
        if answer.name in ("Overflow", "Underflow"):
            return OUT_OF_RANGE, answer.place or 0, BEFORE
        return NO_NUMBER, 0, BEFORE
    return NONE, answer.stop, answer.value


def records(form: Format, longest: int) -> Iterator[bytes]:
    """The records of all texts of up to that many bytes."""
    made = bytes(c_calls.c_format(form))
    for text, name in itertools.product(texts(longest), NAMES):
        fault, stop, value = front_of(form, TYPES[name], text)
        signed = TYPES[name].signed
        yield RECORD.pack(made, text, value % 2 ** 64, len(text), stop, fault, signed)


def main() -> None:
    """The command line."""
    shorter = [*FORMATS, *(f"digits-optional {it}" for it in FORMATS if "optional" not in it)]
    asked = [*((form, 3) for form in shorter), *((form, 4) for form in LONGER)]
    for form, longest in asked:
        made = dataclasses.replace(STANDARD, **dict(read_fields(form)))
        sys.stdout.buffer.writelines(records(made, longest))


if __name__ == "__main__":
    if sys.argv[1:]:
        sys.exit(__doc__)
    try:
        main()
    except OSError as error:
        sys.exit(f"tools/short_fronts.py: {error}")
