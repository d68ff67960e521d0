"""Fixed-point numbers: how they are written."""

from __future__ import annotations

import dataclasses
from typing import TYPE_CHECKING, Optional, Union

from ._core import _check_fixed
from ._format import Format, Punctuation, _integer, byte_of_punctuation

if TYPE_CHECKING:
    from ._core import NumberType


@dataclasses.dataclass(frozen=True, repr=False, eq=False)
class Fixed:
    """How fixed-point numbers are written, such as amounts of money: an integer part, and decimal
    places after a point. Calls accept it as a type.

    The numbers are in units of the last place; they are exact, and nothing is rounded: with two
    places "12.50" is 1250, "-0.05" is -5, and "12.505" is a fault at its last byte. With the
    module decimal, f"{Decimal(1250).scaleb(-2):f}" is "12.50" again, for up to 28 digits.

    type: The type of the numbers, in these units.
    places: The number of decimal places, from 0 to 38. With 0 no point is read.
    point: The byte before the decimal places.
    group: A byte that may stand between two digits of the integer part, as in "1,234.00". The
        number of digits between two of them isn't checked.
    takes_fewer: Fewer decimal places are accepted, as if zeros followed, and with none the point is
        left out too: "12.5" and "12".
    format: What the integer part looks like: its sign, separators and leading zeros, and whether it
        needs a digit: ".5" is read only with Format(required_mantissa_digits=False).

    FormatError says which rule is broken first. A description can't be changed.

    >>> Fixed("i64", places=2, point=",", group=".")
    Fixed('i64', places=2, point=',', group='.')
    """

    type: NumberType = "i64"
    _: dataclasses.KW_ONLY
    places: int
    point: Union[bytes, str] = "."
    group: Punctuation = None
    takes_fewer: bool = False
    format: Optional[Format] = None

    def __post_init__(self) -> None:
        object.__setattr__(self, "places", _integer("places", self.places))
        if not isinstance(self.takes_fewer, bool):
            kind = type(self.takes_fewer).__name__
            raise TypeError(f"takes_fewer has to be True or False, and not {kind}")
        if self.format is not None and not isinstance(self.format, Format):
            kind = type(self.format).__name__
            raise TypeError(f"format has to be a jadvolni.Format or None, and not {kind}")
        object.__setattr__(self, "_fixed", self._bytes())
        _check_fixed(self)

    def _integer_part(self) -> Format:
        """What the integer part looks like."""
        format = Format() if self.format is None else self.format
        if byte_of_punctuation("group", self.group, " or None") is None:
            return format
        if format.digit_separator is not None:
            raise ValueError("group has to be None where the format has a digit_separator")
        return dataclasses.replace(format, digit_separator=self.group,
                                   integer_internal_digit_separator=True)

    def _bytes(self) -> bytes:
        """The description as the library has it: the bytes of a `jadvolni_fixed`."""
        point = byte_of_punctuation("point", self.point)
        if not point:  # (which the library takes for a full stop)
            raise ValueError("point has to be one byte that isn't 0")
        # Places that are no byte are refused as too many are.
        places = self.places if 0 <= self.places <= 255 else 255
        fields = self._integer_part()._fields + bytes([point, places, self.takes_fewer])
        return fields.ljust(48, b"\0")

    def __repr__(self) -> str:
        fields = [it for it in dataclasses.fields(self) if it.name != "type"]
        given = "".join(f", {it.name}={getattr(self, it.name)!r}" for it in fields
                        if getattr(self, it.name) is not it.default)
        return f"Fixed({self.type!r}{given})"

    def __eq__(self, other: object) -> bool:
        if not isinstance(other, Fixed):
            return NotImplemented
        return (self._fixed, self.type) == (other._fixed, other.type)

    def __hash__(self) -> int:
        return hash((self._fixed, self.type))

    if TYPE_CHECKING:

        @property
        def _fixed(self) -> bytes:
            """The description as the library has it."""
