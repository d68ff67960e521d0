"""Cells of fixed widths, with nothing between them."""

from __future__ import annotations

import sys
from array import array
from itertools import accumulate, pairwise
from typing import Iterable, Sequence

from ._faults import TRIMMED, hint_at
from ._format import _integer


def sizes_of(widths: Iterable[int]) -> array[int]:
    """Widths as an array, if each may be a width: from 0 to sys.maxsize."""
    if not isinstance(widths, Iterable):
        raise TypeError(f"widths has to be a list or None, and not {type(widths).__name__}")
    sizes = [_integer("a width", it) for it in widths]
    for size in sizes:
        if not 0 <= size <= sys.maxsize:
            raise ValueError(f"a width has to be from 0 to {sys.maxsize}, and not {size}")
    return array("Q", sizes)


def ask_count(sizes: Sequence[int], count: int) -> None:
    """Raises ValueError unless there is one width for each column, and at least one."""
    if len(sizes) != count or count == 0:
        raise ValueError(f"widths have to be one for each of {count} columns, and not {len(sizes)}")


def header_cells(line: bytes, sizes: Sequence[int], is_record: bool) -> list[bytes]:
    """The cells of a header, which has to have as many bytes as the widths together."""
    stops = list(accumulate(sizes, initial=0))
    if len(line) != stops[-1]:
        is_trimmed = len(line) < stops[-1] and not is_record
        hint = hint_at(line) or (TRIMMED if is_trimmed else "")
        raise ValueError(f"the header has {len(line)} bytes, and the widths have {stops[-1]}{hint}")
    return [line[start:stop] for start, stop in pairwise(stops)]
