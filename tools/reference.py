"""A reference implementation of the grammar, to compare the built program and the library with.

Written from docs/GRAMMAR.md, and not from the code or the definitions in specs/, so that a slip
there isn't repeated here. It looks at the whole text by its places, as the grammar does: it finds
each run of separators once and judges it by its neighbours, takes the greatest end, adds the digits
up without bound, and then asks for each fault in the grammar's order. Nothing of it follows the
program's steps.
"""
from __future__ import annotations

import itertools
from dataclasses import dataclass
from typing import Iterator, List, NamedTuple, Optional, Tuple, Union


class IntegerType(NamedTuple):
    """One of the twelve types."""

    bits: int
    signed: bool

    def has(self, value: int) -> bool:
        """Whether the value is inside the type."""
        if self.signed:
            return -(1 << (self.bits - 1)) <= value < 1 << (self.bits - 1)
        return 0 <= value < 1 << self.bits


TYPES = {b"%c%d" % (sign, bits): IntegerType(bits, sign == ord("i"))
         for sign in b"ui" for bits in (8, 16, 32, 64, 128)}
TYPES.update({b"usize": IntegerType(64, False), b"isize": IntegerType(64, True)})


@dataclass(frozen=True)
class Format:
    """The fields of a format; as they stand here, those of the standard one."""

    mantissa_radix: int = 10
    digit_separator: Optional[int] = None
    base_prefix: Optional[int] = None
    base_suffix: Optional[int] = None
    case_sensitive_base_prefix: bool = False
    case_sensitive_base_suffix: bool = False
    required_integer_digits: bool = False
    required_mantissa_digits: bool = True
    no_positive_mantissa_sign: bool = False
    required_mantissa_sign: bool = False
    no_integer_leading_zeros: bool = False
    integer_leading_digit_separator: bool = False
    integer_internal_digit_separator: bool = False
    integer_trailing_digit_separator: bool = False
    integer_consecutive_digit_separator: bool = False
    integer_prefix_digit_separator: bool = False
    literal_prefixes: bool = False
    literal_octal_zero: bool = False


STANDARD = Format()
JSON = Format(required_integer_digits=True, no_positive_mantissa_sign=True,
              no_integer_leading_zeros=True)
BYTE_FIELDS = ("digit_separator", "base_prefix", "base_suffix")
FLAG_FIELDS = tuple(name for name, value in vars(STANDARD).items() if isinstance(value, bool))


class Fault(NamedTuple):
    """A fault, with its place where it has one."""

    name: str
    place: Optional[int] = None


class Value(NamedTuple):
    """A value, and where reading stopped."""

    value: int
    stop: int


Answer = Union[Value, Fault]


# ---- bytes

WORTH = {byte: worth for worth, byte in enumerate(b"0123456789abcdefghijklmnopqrstuvwxyz")}
WORTH.update({byte: worth for worth, byte in enumerate(b"ABCDEFGHIJKLMNOPQRSTUVWXYZ", 10)})


def digit(byte: int, radix: int) -> Optional[int]:
    """What the byte is worth, where it is a digit of the radix."""
    worth = WORTH.get(byte)
    return worth if worth is not None and worth < radix else None


def in_small(byte: int) -> int:
    """The byte, a capital ASCII letter as the small one."""
    return byte + 32 if ord("A") <= byte <= ord("Z") else byte


def matches(byte: int, wanted: int, case_sensitive: bool) -> bool:
    """Whether the byte is the wanted one, in its case or in either."""
    return byte == wanted if case_sensitive else in_small(byte) == in_small(wanted)


# ---- valid formats

def is_unfit(byte: Optional[int], radix: int) -> bool:
    """Whether the byte of a field is set, and may not be a separator, prefix or suffix."""
    return byte is not None and (byte > 127 or byte in b"+-" or digit(byte, radix) is not None)


def punctuation_is_shared(form: Format) -> bool:
    """Whether two of separator, prefix and suffix are one byte, or one letter in two cases."""
    fields = (form.digit_separator, form.base_prefix, form.base_suffix)
    punctuation = [in_small(byte) for byte in fields if byte is not None]
    return len(set(punctuation)) < len(punctuation)


def literal_prefixes_clash(form: Format) -> bool:
    """Whether the text may choose its radix, and another field doesn't go with that."""
    if (form.literal_prefixes or form.literal_octal_zero) and form.mantissa_radix != 10:
        return True
    if not form.literal_prefixes:
        return False
    beside = [byte for byte in (form.digit_separator, form.base_suffix) if byte is not None]
    taken = any(digit(byte, 16) is not None or in_small(byte) in b"xob" for byte in beside)
    return form.base_prefix is not None or taken


def format_fault(form: Format) -> Optional[Fault]:
    """The fault of the first rule that the format breaks."""
    radix = form.mantissa_radix
    if not 2 <= radix <= 36:
        return Fault("InvalidMantissaRadix")
    if is_unfit(form.digit_separator, radix):
        return Fault("InvalidDigitSeparator")
    if is_unfit(form.base_prefix, radix):
        return Fault("InvalidBasePrefix")
    if is_unfit(form.base_suffix, radix):
        return Fault("InvalidBaseSuffix")
    if punctuation_is_shared(form):
        return Fault("InvalidPunctuation")
    return Fault("InvalidLiteralPrefixes") if literal_prefixes_clash(form) else None


# ---- the parts of a text

class Sign(NamedTuple):
    """Whether there is a minus, and the place behind the sign."""

    is_negative: bool
    behind: int


def sign_of(form: Format, kind: IntegerType, text: bytes) -> Union[Sign, Fault]:
    """The sign, by the first line of the grammar's table that fits."""
    first = text[:1]
    if first == b"+":
        return Fault("InvalidPositiveSign", 0) if form.no_positive_mantissa_sign else Sign(False, 1)
    if first == b"-" and kind.signed:
        return Sign(True, 1)
    return Fault("MissingSign", 0) if form.required_mantissa_sign else Sign(False, 0)


def prefixes_of(form: Format) -> Iterator[Tuple[int, int]]:
    """The letters that make a prefix behind a zero, each with its radix."""
    if form.base_prefix is not None:
        yield form.base_prefix, form.mantissa_radix
    if form.literal_prefixes:
        yield from ((ord("x"), 16), (ord("o"), 8), (ord("b"), 2))


class Region(NamedTuple):
    """Where the numeral's region starts, whether a prefix stands before it, the effective radix,
    and whether a zero at its start makes it octal."""

    start: int
    prefixed: bool
    radix: int
    octal: bool = False


def region_of(form: Format, text: bytes, place: int) -> Region:
    """The region of the numeral, where the sign ends at the place."""
    has_zero = text[place:place + 1] == b"0"
    if has_zero and place + 1 < len(text):
        for known, radix in prefixes_of(form):
            if matches(text[place + 1], known, form.case_sensitive_base_prefix):
                return Region(place + 2, True, radix)
    if has_zero and form.literal_octal_zero:
        return Region(place, False, 8, octal=True)
    return Region(place, False, form.mantissa_radix)


def runs_of(form: Format, text: bytes, start: int) -> Iterator[range]:
    """The runs of separators in the region, each as its places."""
    places = [place for place in range(start, len(text)) if text[place] == form.digit_separator]
    # Neighbours in a run keep their distance to their rank.
    for _, run in itertools.groupby(enumerate(places), lambda ranked: ranked[1] - ranked[0]):
        members = [place for _, place in run]
        yield range(members[0], members[-1] + 1)


def run_passes(form: Format, text: bytes, region: Region, run: range) -> bool:
    """Whether the run passes, by its neighbours in the region."""
    if len(run) > 1 and not form.integer_consecutive_digit_separator:
        return False
    before = run.start > region.start and digit(text[run.start - 1], region.radix) is not None
    behind = run.stop < len(text) and digit(text[run.stop], region.radix) is not None
    if before and behind:
        return form.integer_internal_digit_separator
    if before:
        return form.integer_trailing_digit_separator
    behind_prefix = region.prefixed and form.integer_prefix_digit_separator
    leading = form.integer_leading_digit_separator or behind_prefix
    return leading if behind else leading or form.integer_trailing_digit_separator


def end_of(form: Format, text: bytes, region: Region) -> int:
    """The greatest place before which the region has only digits and permitted separators."""
    runs = runs_of(form, text, region.start)
    passing = {place for run in runs if run_passes(form, text, region, run) for place in run}
    for place in range(region.start, len(text)):
        if place not in passing and digit(text[place], region.radix) is None:
            return place
    return len(text)


class Reading(NamedTuple):
    """What the parts of a text are. The digits are pairs of their place and their worth."""

    is_negative: bool
    region: Region
    digits: List[Tuple[int, int]]
    end: int

    def signed(self, size: int) -> int:
        """The size behind the text's sign."""
        return -size if self.is_negative else size


def reading_of(form: Format, text: bytes, sign: Sign) -> Reading:
    """The parts of the text behind its sign."""
    region = region_of(form, text, sign.behind)
    end = end_of(form, text, region)
    worths = ((place, digit(text[place], region.radix)) for place in range(region.start, end))
    digits = [(place, worth) for place, worth in worths if worth is not None]
    return Reading(sign.is_negative, region, digits, end)


# ---- values and faults

def value_of(reading: Reading) -> int:
    """Each digit times the radix to the power of the number of digits behind it, added up."""
    size, power = 0, len(reading.digits)
    for _, worth in reading.digits:
        power -= 1
        if worth:  # a zero adds nothing, and behind it there may be many thousands more
            size += worth * reading.region.radix ** power
    return reading.signed(size)


def zero_fault(form: Format, reading: Reading) -> Optional[Fault]:
    """The fault of a zero in front of another digit."""
    is_chosen = reading.region.prefixed or reading.region.octal
    if form.no_integer_leading_zeros and not is_chosen and len(reading.digits) > 1:
        place, worth = reading.digits[0]
        return Fault("InvalidLeadingZeros", place) if worth == 0 else None
    return None


def range_fault(kind: IntegerType, reading: Reading) -> Optional[Fault]:
    """The fault at the first digit with which the value leaves the type."""
    radix = reading.region.radix
    front = 0
    for place, worth in reading.digits:
        front = front * radix + worth
        if not kind.has(reading.signed(front)):
            return Fault("Underflow" if reading.is_negative else "Overflow", place)
    return None


def common_fault(form: Format, kind: IntegerType, text: bytes, reading: Reading) -> Optional[Fault]:
    """The faults that both parsers answer behind the sign, in their order."""
    if reading.region.prefixed and reading.region.start == len(text):
        return Fault("Empty", len(text))
    return zero_fault(form, reading) or range_fault(kind, reading)


def stop_of(form: Format, text: bytes, reading: Reading) -> int:
    """Where reading stops: behind the suffix, or at the numeral's end."""
    if form.base_suffix is not None and reading.digits and reading.end < len(text):
        if matches(text[reading.end], form.base_suffix, form.case_sensitive_base_suffix):
            return reading.end + 1
    return reading.end


def lacks_digit(form: Format, reading: Reading) -> bool:
    """Whether a digit is asked for and there is none."""
    return (form.required_integer_digits or form.required_mantissa_digits) and not reading.digits


def end_fault(form: Format, text: bytes, reading: Reading, stop: int,
              is_partial: bool) -> Optional[Fault]:
    """The fault of where reading stopped."""
    if not is_partial and stop < len(text):
        return Fault("InvalidDigit", stop)
    reports_empty = stop == len(text) or form.digit_separator is not None
    return Fault("Empty", stop) if lacks_digit(form, reading) and reports_empty else None


def parse(form: Format, kind: IntegerType, text: bytes, is_partial: bool) -> Answer:
    """The answer of the complete or the partial parser under a valid format."""
    sign = sign_of(form, kind, text)
    if isinstance(sign, Fault):
        return sign
    reading = reading_of(form, text, sign)
    stop = stop_of(form, text, reading)
    fault = common_fault(form, kind, text, reading)
    fault = fault or end_fault(form, text, reading, stop, is_partial)
    return fault if fault else Value(value_of(reading), stop)


def number_in_front(form: Format, kind: IntegerType, text: bytes) -> Union[Value, Fault]:
    """The number in front of a text: the answer of its front, if that has a digit."""
    answer = parse(form, kind, text, True)
    sign = sign_of(form, kind, text)
    if isinstance(answer, Fault) or isinstance(sign, Fault):
        return answer
    return answer if reading_of(form, text, sign).digits else Fault("Empty", answer.stop)
