"""Formats: which texts are numbers."""

from __future__ import annotations

import dataclasses
import operator
from contextlib import suppress
from typing import TYPE_CHECKING, Any, Optional, Union

from ._core import _check_format

# A byte of punctuation, as `b"_"` or `"_"`.
Punctuation = Union[bytes, str, None]

_PUNCTUATION = ("digit_separator", "base_prefix", "base_suffix")
_PREFIXES = ("base_prefix", "literal_prefixes")
_PLACES = tuple(f"integer_{place}_digit_separator" for place in ("leading", "internal", "trailing"))
_BEHIND_PREFIX = "integer_prefix_digit_separator"
# What changes nothing unless one of other fields is set.
_NEEDED = (
    ("digit_separator", (*_PLACES, _BEHIND_PREFIX)),
    *((name, ("digit_separator",)) for name in _PLACES),
    ("integer_consecutive_digit_separator", ("digit_separator",)),
    (_BEHIND_PREFIX, ("digit_separator",)),
    (_BEHIND_PREFIX, _PREFIXES),
    ("case_sensitive_base_prefix", _PREFIXES),
    ("case_sensitive_base_suffix", ("base_suffix",)),
)


def bytes_of(text: str) -> bytes:
    """The bytes of a str as every call reads them, also where it has none in UTF-8."""
    for errors in "strict", "surrogateescape":
        with suppress(UnicodeEncodeError):
            return str.encode(text, "utf-8", errors)
    return str.encode(text, "utf-8", "surrogatepass")


def byte_of_punctuation(name: str, value: object, none: str = "") -> Optional[int]:
    """The byte of an argument of a name, or None for None, where that may be."""
    if value is None and none:
        return None
    if not isinstance(value, (bytes, str)):
        raise TypeError(f"{name} has to be one byte{none}, and not {type(value).__name__}")
    encoded = bytes_of(value) if isinstance(value, str) else value
    if len(encoded) != 1:
        raise ValueError(f"{name} has to be one byte{none}, and {value!r} has {len(encoded)}")
    return encoded[0]


@dataclasses.dataclass(frozen=True, kw_only=True, repr=False, eq=False)
class Format:
    """Which texts are numbers. A format can't be changed, and one that breaks a rule isn't made.

    mantissa_radix: The radix, from 2 to 36. Digits above 9 are letters, in either case.
    digit_separator: A byte that is ignored among the digits: "_" in "1_000". The flags on
        separators say where it may stand; with none of them, nowhere. It isn't a decimal point:
        with "," between digits "12,5" is 125, and "12,505" is 12505. For amounts use fixed-point
        numbers.
    base_prefix: A byte that may follow a 0 before the digits: with "x", "0x1F" is read like "1F".
        It doesn't change the radix.
    base_suffix: A byte that may follow the digits: with "h", "1Fh" is read like "1F".
    case_sensitive_base_prefix: The prefix is matched exactly. Otherwise a letter matches in either
        case.
    case_sensitive_base_suffix: The suffix is matched exactly. Otherwise a letter matches in either
        case.
    required_integer_digits: A digit is required, as with required_mantissa_digits: one of the two
        is enough.
    required_mantissa_digits: A digit is required. If neither field is set, "" and "+" are 0, but a
        prefix alone is not. A front still needs a digit, except an amount's.
    no_positive_mantissa_sign: A "+" is refused.
    required_mantissa_sign: A text without a sign is refused.
    no_integer_leading_zeros: Leading zeros are refused, as in "01". After a prefix they aren't, nor
        in a number that a zero makes octal.
    integer_leading_digit_separator: Separators may come before the first digit: "_12".
    integer_internal_digit_separator: Separators may come between two digits: "1_2".
    integer_trailing_digit_separator: Separators may come after the last digit: "12_".
    integer_consecutive_digit_separator: Where one separator may stand, several may: "1__2".
    integer_prefix_digit_separator: Separators may come directly after a prefix, as in "0x_1F", like
        leading ones. No effect without a prefix.
    literal_prefixes: "0x", "0o" and "0b" choose the radix 16, 8 or 2 for the digits after them; so
        do "0X", "0O" and "0B", unless the prefix is matched exactly. The radix of the format must
        be 10; it is used for a text without such a prefix.
    literal_octal_zero: A number is octal if its first byte, after any sign, is 0: "0777" is 511,
        and "08" ends after its zero. "1007" and "_017" are decimal, and a prefix takes precedence.
        The radix of the format must be 10.

    FormatError tells which rule a format breaks. A field that has no effect without another, such
    as `integer_leading_digit_separator` without `digit_separator`, is a ValueError. No field
    requires a prefix or a suffix, or refuses a minus for a signed type.

    >>> Format(mantissa_radix=16, base_prefix="x")
    Format(mantissa_radix=16, base_prefix='x')
    """

    # The fields, in the order of their bytes.
    mantissa_radix: int = 10
    digit_separator: Punctuation = None
    base_prefix: Punctuation = None
    base_suffix: Punctuation = None
    case_sensitive_base_prefix: bool = False
    case_sensitive_base_suffix: bool = False
    required_integer_digits: bool = False
    required_mantissa_digits: bool = True
    no_positive_mantissa_sign: bool = False
    required_mantissa_sign: bool = False
    no_integer_leading_zeros: bool = False
    integer_leading_digit_separator: bool = False
    integer_internal_digit_separator: bool = False
    integer_trailing_digit_separator: bool = False
    integer_consecutive_digit_separator: bool = False
    integer_prefix_digit_separator: bool = False
    literal_prefixes: bool = False
    literal_octal_zero: bool = False

    def __post_init__(self) -> None:
        object.__setattr__(self, "mantissa_radix", _integer("mantissa_radix", self.mantissa_radix))
        given = self._given()
        for name, value in given.items():
            if isinstance(_DEFAULTS[name], bool) and not isinstance(value, bool):
                kind = type(value).__name__
                raise TypeError(f"{name} has to be True or False, and not {kind}")
        object.__setattr__(self, "_fields", self._bytes())
        _check_format(self)
        for name, needed in _NEEDED:
            if name in given and not any(getattr(self, other) for other in needed):
                raise ValueError(f"{name} changes nothing without {' or '.join(needed)}")

    def _given(self) -> dict[str, object]:
        """The fields that differ from their defaults."""
        values = {name: getattr(self, name) for name in _DEFAULTS}
        return {name: value for name, value in values.items() if value is not _DEFAULTS[name]}

    def _bytes(self) -> bytes:
        """The format as the library has it: the bytes of a `jadvolni_format`."""
        numbers = {name: getattr(self, name) for name in _DEFAULTS}
        punctuation = {name: byte_of_punctuation(name, getattr(self, name), " or None")
                       for name in _PUNCTUATION}
        # A radix that is no byte is refused as 0 is.
        radix = self.mantissa_radix if 0 <= self.mantissa_radix <= 255 else 0
        values: dict[str, Optional[int]] = {**numbers, **punctuation, "mantissa_radix": radix}
        given = enumerate(punctuation.values())
        nul_is_punctuation = sum(1 << bit for bit, byte in given if byte == 0)
        fields = bytes([*(value or 0 for value in values.values()), nul_is_punctuation])
        return fields.ljust(32, b"\0")

    def __repr__(self) -> str:
        given = ", ".join(f"{name}={value!r}" for name, value in self._given().items())
        return f"Format({given})"

    def __eq__(self, other: object) -> bool:
        if not isinstance(other, Format):
            return NotImplemented
        return self._fields == other._fields

    def __hash__(self) -> int:
        return hash(self._fields)

    if TYPE_CHECKING:

        @property
        def _fields(self) -> bytes:
            """The format as the library has it."""


def _integer(name: str, value: Any) -> int:
    """An integer of any type, as one of NumPy, as an int."""
    try:
        return operator.index(value)
    except TypeError:
        kind = type(value).__name__
        raise TypeError(f"{name} has to be an integer, and not {kind}") from None


_DEFAULTS = {field.name: field.default for field in dataclasses.fields(Format)}
