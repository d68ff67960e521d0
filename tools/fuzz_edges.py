"""Lines at the edges of what a parser decides: each length with a bad byte at each place, each end
of each type in each radix, and separators at each place under each choice of their flags."""
from __future__ import annotations

import itertools
from typing import Iterator, List, NamedTuple

from fuzz_lines import CAPITALS, SMALL, as_numeral
from fuzz_short import RUNS, parses, runs_under
from reference import TYPES

# longer than the digits of a type of 128 bits, and than any length that is read in a way of its own
LONGEST = 43
LONGEST_PARTED = 24
ZEROS = (0, 1, 2, 4, 8, 16, 24)
NAMES = [name for name in TYPES if name not in (b"usize", b"isize")]


class Setting(NamedTuple):
    """A format, what stands before and behind its digits, and their radix."""

    form: str
    head: bytes = b""
    tail: bytes = b""
    radix: int = 10


LENGTHS = (
    Setting("standard"), Setting("no-leading-zeros no-plus"), Setting("radix=16", radix=16),
    Setting("radix=8", radix=8), Setting("radix=36", radix=36),
    Setting("separator=_ internal suffix=h", tail=b"h"),
    Setting("literal-prefixes separator=_ internal consecutive"),
    Setting("literal-prefixes octal-zero", b"0x", radix=16),
    Setting("prefix=x suffix=h", b"0x", b"h"),
)
PARTED = (
    Setting(""), Setting("", b"-"), Setting("prefix=x suffix=h", b"0x", b"h"),
    Setting("literal-prefixes behind-prefix", b"-0b", radix=2),
    Setting("no-leading-zeros radix=16 suffix=h", radix=16),
)


# ---- lengths

def numerals(length: int, radix: int) -> Iterator[bytes]:
    """Digits that are few in value, and digits that soon are too many for a type."""
    yield (b"0" * length + b"11")[-length:] if length else b""
    yield (SMALL[1:radix] * (1 + length // (radix - 1)))[:length]


def bad_bytes(radix: int) -> bytes:
    """The neighbours of the digits, and a digit with the high bit set."""
    after = SMALL[radix] if radix < len(SMALL) else ord("{")
    return bytes((ord("/"), after, 0xb1))


def with_bad_byte(digits: bytes, radix: int) -> Iterator[bytes]:
    """The digits as they are, and with a bad byte at each place."""
    yield digits
    for place, byte in itertools.product(range(len(digits)), bad_bytes(radix)):
        yield digits[:place] + bytes([byte]) + digits[place + 1:]


def of_lengths(setting: Setting) -> Iterator[bytes]:
    """Each length, as each type, without a sign and behind one."""
    for length, name in itertools.product(range(LONGEST + 1), NAMES):
        signs = (b"", b"-" if TYPES[name].signed else b"+")
        for digits, sign in itertools.product(numerals(length, setting.radix), signs):
            for text in with_bad_byte(digits, setting.radix):
                yield from parses(name, sign + setting.head + text + setting.tail)


# ---- ends of types

def near_ends(name: bytes, radix: int) -> Iterator[bytes]:
    """The numbers on both sides of the ends of a type, in either case of letters."""
    bits, signed = TYPES[name]
    least, greatest = (1 << (bits - 1), (1 << (bits - 1)) - 1) if signed else (0, (1 << bits) - 1)
    for digits, step in itertools.product((SMALL, CAPITALS)[:1 + (radix > 10)], range(-2, 4)):
        yield as_numeral(greatest + step, radix, digits)
        yield b"-" + as_numeral(max(0, least + step), radix, digits)


def of_ends(radix: int) -> Iterator[bytes]:
    """The ends of each type, behind zeros and before a digit or a bad byte."""
    for name in NAMES:
        for number, zeros in itertools.product(near_ends(name, radix), ZEROS):
            sign, digits = (number[:1], number[1:]) if number[:1] == b"-" else (b"", number)
            for tail in (b"", b"0", b"/"):
                yield from parses(name, sign + b"0" * zeros + digits + tail)


# ---- separators

def parted(digits: bytes) -> Iterator[bytes]:
    """The digits with one separator or two in their place, side by side or apart."""
    for first in range(len(digits)):
        for second in range(first, len(digits)):
            text = bytearray(digits)
            text[first] = text[second] = ord("_")
            yield bytes(text)


def of_parted(setting: Setting) -> Iterator[bytes]:
    """Each length up to that of the longest, with separators at each place."""
    names = (b"i64", b"i128") if b"-" in setting.head else (b"u64", b"u128")
    for length in range(1, LONGEST_PARTED + 1):
        for digits, name in zip(numerals(length, setting.radix), names):
            for text in parted(digits):
                yield from parses(name, setting.head + text + setting.tail)


# ---- all of them

def edge_runs(length: int) -> Iterator[List[bytes]]:
    """Runs of about that many lines."""
    for setting in LENGTHS:
        yield from runs_under(setting.form, of_lengths(setting), length)
    for radix in range(2, 37):
        yield from runs_under(f"radix={radix}", of_ends(radix), length)
    for setting, places in itertools.product(PARTED, RUNS):
        yield from runs_under(f"{setting.form} {places}", of_parted(setting), length)
