"""Columns as NumPy arrays, for those who have NumPy."""

from __future__ import annotations

from typing import TYPE_CHECKING, Any, Optional, Union

from ._core import parse_column
from ._format import Format

if TYPE_CHECKING:
    import numpy

    from ._core import NumberType, Text
    from ._fixed import Fixed


def numpy_column(
    text: Text,
    type: Union[NumberType, Fixed] = "i64",
    separator: Text = b"\n",
    format: Optional[Format] = None,
) -> numpy.ndarray[Any, Any]:
    """The numbers of the text's fields, as a NumPy array.

    It has the memory of the array that `parse_column` gives: nothing is copied. It raises what
    `parse_column` raises, and ImportError where NumPy isn't installed.
    """
    import numpy

    return numpy.asarray(parse_column(text, type, separator, format))
