#!/usr/bin/env python3
"""Reads each integer literal of this machine's C headers and Rust sources, beside other readers.

The headers are those below /usr/include, the sources those that Rust's documentation shows, where
rustup has put it. The library reads each literal with its suffix, as Python's `int` reads it
without; of 2,000 of each language the compiler says the value. Needs Python 3.11.
"""
from __future__ import annotations

import ctypes
import glob
import html
import os
import random
import re
import sys
from dataclasses import replace
from typing import Iterator, NamedTuple

import language_judges as judges
from c_calls import STATUSES, Library, format_of
from row_data import LANGUAGES, TOP, Group, groups_of

# What has no literal comes first: comments, texts, characters, lifetimes and names.
PASSED = (r"//[^\n]*|/\*.*?\*/|(?:b|c)?r(#*)\".*?\"\1|\"(?:\\.|[^\"\\])*\""
          r"|'(?:\\[^\n][^'\n]*|[^'\\\n])'|'?[A-Za-z_]\w*|")


class Sources(NamedTuple):
    """Sources of a language: where they are, its numbers, its integers as number and suffix, its
    formats, and who knows the values."""

    files: str
    number: str
    integer: str
    formats: tuple[str, ...]
    judge: judges.Compiler


C = Sources("/usr/include/**/*.h", r"(\.?[0-9](?:[eEpP][+-]|'(?=\w)|[\w.])*)",
            r"(0[xX][0-9a-fA-F']+|0[bB][01']+|0[0-7']*|[1-9][0-9']*)([uUlL]*)", ("c", "c23"),
            judges.c_compiler(["gcc", "-std=c2x", "-fmax-errors=0"]))
RUST = Sources("~/.rustup/toolchains/*/share/doc/rust/html/src/**/*.rs.html",
               r"([0-9]\w*(?:\.[0-9]\w*|\.(?![.\w]))?(?:(?<=[eE])[+-][0-9_]+)?)",
               r"(0x[0-9a-fA-F_]+|0o[0-7_]+|0b[01_]+|[0-9][0-9_]*)"
               r"([iu](?:8|16|32|64|128|size))?", ("rust",),
               replace(judges.RUSTC, line="p({at}, {text} as u128);"))


def text_of(path: str) -> str:
    """A source; of a page the code that it shows, without the numbers of its lines."""
    with open(path, encoding="utf-8", errors="replace") as file:
        text = file.read()
    if not path.endswith(".html"):
        return text
    code = text[text.index("<code>"):text.rindex("</code>")]
    return html.unescape(re.sub(r"<a href=#\d+ [^>]*>\d+</a>|<[^>]*>", "", code))


def literals_of(sources: Sources) -> Iterator[tuple[str, str]]:
    """Each integer literal of the sources, with its number."""
    token = re.compile(PASSED + sources.number, re.S)
    for path in glob.iglob(os.path.expanduser(sources.files), recursive=True):
        for found in token.finditer(text_of(path)):
            if split := re.fullmatch(sources.integer, found[2] or ""):
                yield found[2], split[1]


def value_of(number: str, is_octal: bool) -> int:
    """A number, by Python's int; a 0 before its digits may make it octal."""
    digits = re.sub("['_]", "", number)
    return int(digits, 0 if not digits.isdigit() else 8 if is_octal and digits[0] == "0" else 10)


def answer(library: Library, text: str, group: Group) -> tuple[str, int, int, int]:
    """What the library makes of a literal that more follows: status, value, and two places."""
    value, suffix, code = (ctypes.c_uint64 * 2)(), ctypes.c_size_t(), f"{text};".encode()
    result = library.call_of("jadvolni_parse_literal")(
        code, ctypes.c_size_t(len(code)), ctypes.byref(format_of(group)), value,
        ctypes.byref(suffix))
    return STATUSES[result.status], value[0] + (value[1] << 64), suffix.value, result.place


def is_read(library: Library, text: str, group: Group, number: str, value: int) -> bool:
    """Whether the library reads a literal; one of more than 128 bits, as NumPy's headers have, has
    to be refused."""
    said = answer(library, text, group)
    if value >= 1 << 128:
        return said[0] == "Overflow"
    return said == ("Ok", value, len(number), len(text))


def wrong_answers(library: Library, sources: Sources) -> list[str]:
    """What is read otherwise of a language."""
    found = list(literals_of(sources))
    numbers = dict(found)
    values = {text: value_of(number, sources is C) for text, number in numbers.items()}
    if not found:
        print(f"{sources.files}: no such source is on this machine, and all were passed over")
        return []
    judged = sources.judge.ask(random.Random(1).sample(sorted(numbers), min(2000, len(numbers))))
    refused = [text for text, value in judged.items() if value is None]
    print(f"{len(found)} literals, {len(numbers)} different ones; of {len(judged)} the compiler "
          f"refuses {refused}", flush=True)
    wrong = [text for text, value in judged.items() if value not in (values[text], None)]
    # (C up to C17 has no separator: literals with one are those of headers of C++)
    return wrong + [
        f"{group.name}: {text}" for group in groups_of(LANGUAGES) if group.name in sources.formats
        for text, value in values.items() if not (group.name == "c" and "'" in text)
        if not is_read(library, text, group, numbers[text], value)]


if __name__ == "__main__":
    if sys.argv[1:]:
        print(__doc__, file=sys.stderr)
        sys.exit(2)
    LOADED = Library(os.path.join(TOP, "build", "libjadvolni.so"))
    WRONG = wrong_answers(LOADED, C) + wrong_answers(LOADED, RUST)
    print(f"read otherwise: {len(WRONG)}", *WRONG[:20], sep="\n")
    sys.exit(bool(WRONG))
