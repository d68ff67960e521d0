"""Fixed-point numbers, read slowly with Python's decimal, and random texts of them.

The slow reader is written from the words of docs/GRAMMAR.md and of crates/lexical_fixed/README.md:
it finds the parts of the text by their places, and has their value from decimal.
"""
from __future__ import annotations

import os
import random
import sys
from dataclasses import dataclass, field, replace
from decimal import Context, Decimal
from typing import NamedTuple

TOP = os.path.dirname(os.path.dirname(os.path.dirname(os.path.abspath(__file__))))
sys.path.insert(0, os.path.join(TOP, "tools"))

from reference import (STANDARD, Fault, Format, IntegerType, Value, lacks_digit,  # noqa: E402
                       range_fault, reading_of, sign_of, zero_fault)

EXACT = Context(prec=400)


@dataclass(frozen=True)
class Fixed:
    """The fields of a description."""

    integer: Format = field(default=STANDARD)
    point: int = ord(".")
    places: int = 2
    takes_fewer: bool = True


GROUPED = replace(STANDARD, digit_separator=ord(","), integer_internal_digit_separator=True)
STRICT = replace(STANDARD, no_integer_leading_zeros=True, no_positive_mantissa_sign=True)
FIXED = {
    "cents": Fixed(),
    "exact": Fixed(takes_fewer=False),
    "units": Fixed(places=0),
    "grouped": Fixed(integer=GROUPED),
    "german": Fixed(integer=replace(GROUPED, digit_separator=ord(".")), point=ord(","), places=1,
                    takes_fewer=False),
    "strict": Fixed(integer=STRICT, places=3),
    "bare": Fixed(integer=replace(STANDARD, required_mantissa_digits=False)),
    "signed": Fixed(integer=replace(STANDARD, required_mantissa_sign=True), places=1),
    "any": Fixed(integer=replace(GROUPED, integer_trailing_digit_separator=True,
                                 integer_leading_digit_separator=True,
                                 integer_consecutive_digit_separator=True), places=8),
    "most": Fixed(places=38),
}


# ---- the slow reader

class Parts(NamedTuple):
    """The parts of a text behind its integer part: its places, and the digits of the fraction."""

    has_point: bool
    fraction: bytes
    is_cut: bool
    end: int


def digits_at(text: bytes, place: int) -> bytes:
    """The decimal digits from a place on."""
    rest = text[place:]
    return rest[:len(rest) - len(rest.lstrip(b"0123456789"))]


def parts_behind(fixed: Fixed, text: bytes, place: int) -> Parts:
    """Point and fraction behind an integer part that ends at a place."""
    stands = text[place:place + 1] == bytes([fixed.point])
    behind = digits_at(text, place + 1) if stands else b""
    has_point = stands and fixed.places > 0
    fraction = behind[:fixed.places]
    end = place + 1 + len(fraction) if has_point else place
    return Parts(has_point, fraction, len(behind) > fixed.places, end)


def out_of(kind: IntegerType, number: Decimal) -> bool:
    """Whether a whole number is outside the type."""
    return not kind.has(int(number))


def range_name(is_negative: bool) -> str:
    """The fault of a number that leaves its type."""
    return "Underflow" if is_negative else "Overflow"


def read(fixed: Fixed, kind: IntegerType, text: bytes, is_front: bool) -> Value | Fault:
    """What a text stands for under a valid description."""
    form = fixed.integer
    sign = sign_of(form, kind, text)
    if isinstance(sign, Fault):
        return sign
    reading = reading_of(form, text, sign)
    fault = zero_fault(form, reading) or range_fault(kind, reading)
    if fault:
        return fault
    if lacks_digit(form, reading):
        is_bad = not is_front and reading.end < len(text)
        return Fault("InvalidDigit" if is_bad else "Empty", reading.end)
    digits = bytes(text[place] for place, _ in reading.digits)
    parts = parts_behind(fixed, text, reading.end)
    minus = b"-" if sign.is_negative else b""
    for count in range(1, len(parts.fraction) + 1):
        if out_of(kind, Decimal((minus + digits + parts.fraction[:count]).decode())):
            return Fault(range_name(sign.is_negative), reading.end + count)
    is_short = not fixed.takes_fewer and len(parts.fraction) < fixed.places
    end = parts.end
    if is_front:
        if fixed.takes_fewer and not parts.fraction:
            end = reading.end
        if parts.is_cut:
            return Fault("InvalidDigit", end)
    elif end < len(text):
        return Fault("InvalidDigit", end)
    elif parts.has_point and not parts.fraction:
        return Fault("Empty", end)
    if is_short:
        return Fault("Empty", end)
    written = Decimal((minus + (digits or b"0") + b"." + parts.fraction).decode())
    number = EXACT.scaleb(written, fixed.places)
    if number != number.to_integral_value(context=EXACT):
        raise AssertionError(f"{text!r} isn't whole")
    if out_of(kind, number):
        return Fault(range_name(sign.is_negative), end)
    return Value(int(number), end)


# ---- texts

def number_text(chance: random.Random, fixed: Fixed, kind: IntegerType) -> bytes:
    """A number of about the size of a type, or shorter, with a point, groups and a sign."""
    most = len(str(1 << kind.bits)) if chance.random() < 0.5 else 8
    size = chance.randint(1, most + 1)
    if chance.random() < 0.3:
        edge = chance.choice([(1 << kind.bits) - 1, 1 << kind.bits, 1 << (kind.bits - 1),
                              (1 << (kind.bits - 1)) - 1, (1 << kind.bits) // 10])
        digits = str(max(0, edge + chance.randint(-2, 2)))
    else:
        digits = "".join(chance.choice("0123456789") for _ in range(size))
    behind = chance.choice([0, 1, fixed.places, fixed.places, max(0, fixed.places - 1),
                            fixed.places + 1])
    front, fraction = digits[:len(digits) - behind], digits[len(digits) - behind:]
    if not front and chance.random() < 0.8:
        front, fraction = "0", digits.rjust(behind, "0")
    separator = fixed.integer.digit_separator
    if separator is not None and chance.random() < 0.7:
        front = f"{int(front or 0):,}".replace(",", chr(separator)) if front else ""
    point = chr(fixed.point) if behind or chance.random() < 0.1 else ""
    sign = chance.choice(["", "", "-", "+"])
    return (sign + front + point + (fraction if behind else "")).encode("latin-1")


def spoilt(chance: random.Random, text: bytes) -> bytes:
    """The text, with a byte put in, taken out or changed at times."""
    if chance.random() < 0.6:
        return text
    place = chance.randint(0, len(text))
    byte = bytes([chance.choice(b"0123456789.,-+ x'\x00\xff")])
    return text[:place] + chance.choice([byte, b""]) + text[place + chance.randint(0, 1):]
