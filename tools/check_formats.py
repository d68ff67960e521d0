"""Formats in C and C++: a part of make test-c.

tests/c/formats.c prints the bytes of each language's format, and what a call answers to each row of
tools/languages.txt under it. The fields are those that the crate rows proves of lexical_formats.
tests/c/readers.c reads the texts of a table of docs/ARCHITECTURE.md: callgrind says which of the
functions that the table names each call goes through.
"""
from __future__ import annotations

import re
from functools import partial
from typing import Iterator

from c_calls import answer_to, format_of
from callers import (C_COMPILERS, CXX17, CXX_COMPILERS, OPTIMISED, Failed, Place, Step, build,
                     needs, run, text_of)
from row_data import LANGUAGES, Group, groups_of, read_fields

KEPT = {"u32": "uint32_t", "u64": "uint64_t", "i32": "int32_t", "i64": "int64_t"}


def asked(groups: list[Group]) -> Iterator[str]:
    """The lines that ask for the formats and for the rows."""
    for group in groups:
        format = f"FORMAT({group.name}, {group.name.upper()})"
        yield f"bytes({format});"
        for row in group.rows:
            text = "".join(f"\\{byte:03o}" for byte in row.text)
            yield f'ROW({row.type}, {KEPT[row.type]}, {format}, "{text}");'


def wanted(groups: list[Group]) -> Iterator[str]:
    """What has to be printed."""
    for group in groups:
        yield "".join(f"{byte} " for byte in bytes(format_of(group)))
        for answer in map(answer_to, group.rows):
            yield f"{answer.status} {answer.place} {answer.number % 2 ** 64}"


def formats(place: Place, compiler: str, language: str, suffix: str) -> str:
    """The formats and rows, as a compiler has them."""
    groups = groups_of(LANGUAGES)
    with open(place.path("formats.inc"), "w", encoding="utf-8") as file:
        file.writelines(f"{line}\n" for line in asked(groups))
    flags = [language, *OPTIMISED, f"-I{place.path('')}"]
    program = build(place, compiler, f"tests/c/formats.{suffix}", flags)
    said, lines = run([program]).split("\n")[:-1], list(wanted(groups))
    wrong = [f"{one}, and not {other}" for one, other in zip(said, lines) if one != other]
    if wrong or len(said) != len(lines):
        raise Failed("\n".join(wrong[:5]) or f"{len(said)} lines, and not {len(lines)}")
    return f"{len(groups)} formats, {len(lines) - len(groups)} rows"


def readings() -> Iterator[tuple[str, set[str]]]:
    """The calls for the texts of the table and for their fronts, and the functions of each."""
    row = re.compile(r"(?m)^ *\| `([^`|]+)` \| `([^`|]+)` \|([^|]*)\|([^|]*)\|$")
    for fields, text, *cells in row.findall(text_of("docs", "ARCHITECTURE.md")):
        values = {"mantissa_radix": 10, "required_mantissa_digits": 1, **dict(read_fields(fields))}
        under = ", ".join(f".{name} = {int(value)}" for name, value in values.items())
        for form, cell in zip(("", "_partial"), cells):
            call = f'jadvolni_parse_i64{form}("{text}", {len(text)}, &value)'
            if fields != "standard":
                call = call.replace("(", "_with_format(", 1).replace(
                    "&value", f"&(jadvolni_format){{{under}}}, &value")
            yield call, set(re.findall(r"`(\w+)`", cell))


def readers(place: Place) -> str:
    """Each call of the table goes through the functions that it says, and through no other."""
    needs("valgrind")
    asked = list(readings())
    with open(place.path("readers.inc"), "w", encoding="utf-8") as file:
        file.writelines(f"ROW(row_{at}, {call})\n" for at, (call, _) in enumerate(asked))
    program = build(place, "cc", "tests/c/readers.c", [*OPTIMISED, f"-I{place.path('')}"])
    run(["valgrind", "-q", "--tool=callgrind", "--separate-callers=9",
         f"--callgrind-out-file={place.path('calls')}", program])
    # A function, of the parser or of what it stands on, and its callers up to the row's.
    line = re.compile(r"(?m)^c?fn=\(\d+\) lexical_[\w:]*?(\w+)(?:::<#\w+>)?'(?:.*')?row_(\d+)'")
    with open(place.path("calls"), encoding="utf-8") as file:
        calls = line.findall(file.read())
    found = [{name for name, row in calls if int(row) == at} for at in range(len(asked))]
    wrong = [f"{call}: {sorted(seen)}, and not {sorted(wanted)}"
             for (call, wanted), seen in zip(asked, found) if seen != wanted]
    if wrong or not asked:
        raise Failed("\n".join(wrong) or "no table")
    return f"{len(asked)} calls, {len(set().union(*found))} functions"


def steps(place: Place) -> Iterator[Step]:
    """A step for each compiler."""
    for compilers, *how in ((C_COMPILERS, "-std=c99", "c"), (CXX_COMPILERS, CXX17, "cpp")):
        for compiler in compilers:
            yield f"formats of languages, {compiler}", partial(formats, place, compiler, *how)
    yield "which function reads what", partial(readers, place)
