"""All short texts over a small alphabet, under a list of formats."""
from __future__ import annotations

import itertools
from typing import Iterator, List

from row_data import read_fields
from run_rows import field_line

ALPHABET = b"019_+-xha"
# a type whose ends three digits reach, with a minus, and one with words of eight
NAMES = (b"i8", b"u64")

# Formats, by the words of test vectors: first separators at each choice of places.
PLACES = ("internal", "leading", "trailing", "consecutive")
RUNS = [" ".join(("separator=_", *places)) for count in range(len(PLACES) + 1)
        for places in itertools.combinations(PLACES, count)]
PLAIN = ["radix=10", "radix=2", "radix=8", "radix=9", "radix=16", "radix=36"]
AFFIXES = [
    "prefix=x", "prefix=x no-leading-zeros digits-optional", "prefix=X prefix-case", "suffix=h",
    "suffix=H suffix-case", "prefix=x suffix=h", "prefix=x suffix=h digits-optional",
    "prefix=x suffix=h radix=16",
]
SIGNS_AND_ZEROS = [
    "no-leading-zeros", "no-leading-zeros suffix=h", "no-leading-zeros no-plus integer-digits",
    "sign-required", "sign-required no-plus", "digits-optional", "digits-optional suffix=h",
]
MIXED = [
    "separator=_ internal leading trailing consecutive prefix=x suffix=h no-leading-zeros",
    "separator=_ leading prefix=x suffix=h digits-optional",
    "separator=_ trailing suffix=h no-leading-zeros",
    "separator=_ internal prefix=x digits-optional no-leading-zeros",
    "separator=_ internal consecutive prefix=x suffix=h",
    "separator=x internal leading trailing suffix=h",
    "separator=a internal consecutive prefix=x",
]
LITERALS = [
    "literal-prefixes", "literal-prefixes no-leading-zeros", "literal-prefixes suffix=h",
    "literal-prefixes prefix-case digits-optional", "literal-prefixes prefix=x",
    "literal-prefixes suffix=h separator=_ internal leading trailing consecutive no-leading-zeros",
]
BEHIND_PREFIX = [
    "prefix=x separator=_ behind-prefix",
    "prefix=x separator=_ behind-prefix internal suffix=h no-leading-zeros",
    "prefix=x separator=_ behind-prefix trailing consecutive digits-optional",
    "literal-prefixes separator=_ behind-prefix internal suffix=h",
    "separator=_ behind-prefix digits-optional",
]
OCTALS = [
    "octal-zero", "octal-zero no-leading-zeros digits-optional", "octal-zero prefix=x suffix=h",
    "octal-zero literal-prefixes separator=_ internal behind-prefix no-leading-zeros",
    "octal-zero separator=_ leading trailing consecutive suffix=h",
    "octal-zero separator=_ sign-required", "octal-zero radix=8",
]
FORMATS = PLAIN + AFFIXES + SIGNS_AND_ZEROS + RUNS + MIXED + LITERALS + BEHIND_PREFIX + OCTALS


def texts(longest: int) -> Iterator[bytes]:
    """All texts of up to that many bytes of the alphabet."""
    for length in range(longest + 1):
        yield from map(bytes, itertools.product(ALPHABET, repeat=length))


def parses(name: bytes, text: bytes) -> Iterator[bytes]:
    """Both parses of a text as a type."""
    return (b"%c %s %s" % (parser, name, text) for parser in b"cp")


def runs_under(form: str, lines: Iterator[bytes], length: int) -> Iterator[List[bytes]]:
    """The lines in runs of about that many, each under a format."""
    first = [b"r", *(field_line(*field) for field in read_fields(form))]
    for front in iter(lambda: list(itertools.islice(lines, length)), []):
        yield first + front


def short_runs(longest: int, length: int) -> Iterator[List[bytes]]:
    """Runs of about that many lines: all texts under all formats."""
    for form in FORMATS:
        asked = itertools.product(NAMES, texts(longest))
        lines = itertools.chain.from_iterable(itertools.starmap(parses, asked))
        yield from runs_under(form, lines, length)
