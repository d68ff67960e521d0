"""Columns of texts: how they are read, and what they are read into."""

from __future__ import annotations

import codecs
import dataclasses
from array import array
from itertools import accumulate
from typing import TYPE_CHECKING, Any, Iterator, NamedTuple, Optional, Sequence, Union, overload

from ._arrow import Arrow
from ._core import _text_list

if TYPE_CHECKING:
    from typing import SupportsIndex

    import numpy
    import pandas

    # What a row of a column of texts has.
    Cell = Union[str, bytes, None]


@dataclasses.dataclass(frozen=True)
class Text:
    """The type of a column whose cells are texts, of any bytes but what ends a cell. Calls on
    tables accept it as a type, and return a TextColumn.

    If a table has quotes, and a cell is enclosed in them, the text is what is within, with each
    doubled quote as one; a text with a quote must be enclosed. Blanks are part of it, even if a
    table allows them. In a Column with may_miss a text that is exactly the table's `missing` is
    None: by default an empty one, also within quotes.

    encoding: The encoding of the bytes, such as "cp1252". With None the texts are bytes.

    LookupError is raised for an encoding that Python doesn't have.
    """

    encoding: Optional[str] = "utf-8"

    def __post_init__(self) -> None:
        if self.encoding is None:
            return
        if not isinstance(self.encoding, str):
            kind = type(self.encoding).__name__
            raise TypeError(f"encoding has to be a str or None, and not {kind}")
        "".encode(self.encoding)  # (which also refuses those that aren't of texts, as "hex")


class Room(NamedTuple):
    """What a column of texts is read into: how many bytes each has, bits or None, and the bytes."""

    sizes: Any
    bits: Any
    data: bytearray
    encoding: Optional[str]


class TextColumn(Sequence["Cell"]):
    """The texts of a column, a sequence of str, with None for each that is missing.

    They are decoded when asked for; UnicodeDecodeError is then raised for bytes that the encoding
    doesn't have, and its reason names the row, counted from 1 over all tables of an iter_table,
    without bad rows. If the encoding is None, they are bytes.

    data: The bytes of all texts, one after another. offsets: Where each starts in them, and where
    the last one stops. bits: Those of a Sparse, or None if no text may be missing.
    These are laid out as Arrow has them. A part by `column[1:3]` is a list.
    before: How many rows stand before them, in tables of the same file.
    """

    def __init__(
        self,
        data: bytearray,
        offsets: Any,
        bits: Any = None,
        encoding: Optional[str] = "utf-8",
        before: int = 0,
    ) -> None:
        self.data, self.offsets, self.bits, self.encoding = data, offsets, bits, encoding
        self.before = before

    def __len__(self) -> int:
        return len(self.offsets) - 1

    @overload
    def __getitem__(self, row: SupportsIndex) -> Cell: ...

    @overload
    def __getitem__(self, row: slice) -> list[Cell]: ...

    def __getitem__(self, row: Union[SupportsIndex, slice]) -> Union[Cell, list[Cell]]:
        rows = range(len(self))
        if isinstance(row, slice):
            return [self._cell(it, *self.offsets[it:it + 2]) for it in rows[row]]
        try:
            chosen = rows[row]
        except IndexError:
            raise IndexError(f"the column has {len(self)} rows, and none of this number") from None
        except TypeError:
            kind = type(row).__name__
            raise TypeError(f"a row has to be an integer or a slice, and not {kind}") from None
        return self._cell(chosen, *self.offsets[chosen:chosen + 2])

    def _cell(self, row: int, start: int, stop: int) -> Cell:
        """The text of a row, whose bytes stand from one place to another."""
        if self.bits is not None and not self.bits[row >> 3] >> (row & 7) & 1:
            return None
        text = self.data[start:stop]
        if self.encoding is None:
            return bytes(text)
        try:
            return text.decode(self.encoding)
        except UnicodeDecodeError as error:
            error.reason += f", in row {self.before + row + 1} of the table"
            raise

    def __iter__(self) -> Iterator[Cell]:
        places = self.offsets.tolist()
        return map(self._cell, range(len(self)), places, places[1:])

    def __repr__(self) -> str:
        return f"<{type(self).__name__} of {len(self)} texts>"

    def tolist(self) -> list[Cell]:
        """The texts as a list."""
        is_utf8 = self.encoding is not None and codecs.lookup(self.encoding).name == "utf-8"
        if not is_utf8 and self.encoding is not None:
            return list(self)
        try:
            found = _text_list(self.data, self.offsets, self.bits, len(self), is_utf8)
        except UnicodeDecodeError:  # (which is raised below, with its row)
            found = None
        return list(self) if found is None else found

    def to_numpy(self) -> numpy.ndarray[Any, Any]:
        """The texts as a NumPy array of objects."""
        import numpy

        found = numpy.empty(len(self), object)
        found[:] = self.tolist()
        return found

    def to_pandas(self, categories: bool = False) -> pandas.Series[Any]:
        """The texts as a pandas Series: of objects, or of categories, which are sorted."""
        import pandas

        if categories:
            return pandas.Series(self.categorical())
        return pandas.Series(self.to_numpy(), dtype=object)

    def categorical(self) -> pandas.Categorical:
        """The texts as a pandas Categorical, for a few texts that come again and again."""
        import pandas

        seen: dict[Cell, Cell] = {}  # (so that equal texts are one object)
        return pandas.Categorical([seen.setdefault(it, it) for it in self.tolist()])

    def for_arrow(self) -> tuple[str, Any, Any, bytearray]:
        """Arrow's code for the texts, which are UTF-8 or any bytes, and the arrays of the column.

        Texts are copied only from another encoding. All are decoded first, so that none is
        handed out that isn't UTF-8 where the column says so.
        """
        if self.encoding is None:
            return "Z", self.offsets, self.bits, self.data
        is_utf8 = codecs.lookup(self.encoding).name == "utf-8"
        if is_utf8 and self.data.isascii():
            return "U", self.offsets, self.bits, self.data
        texts = self.tolist()
        if is_utf8:
            return "U", self.offsets, self.bits, self.data
        encoded = [str(it or "").encode() for it in texts]
        sizes = array("q", map(len, encoded))
        return "U", offsets_of(sizes), self.bits, bytearray(b"".join(encoded))

    def __arrow_c_schema__(self) -> object:
        return Arrow({"": self}, False).__arrow_c_schema__()

    def __arrow_c_array__(self, requested_schema: Optional[object] = None) -> tuple[object, object]:
        return Arrow({"": self}, False).__arrow_c_array__()


def offsets_of(sizes: Any) -> Any:
    """Where texts of these sizes start, one after another, and where the last one stops."""
    if isinstance(sizes, array):
        return array("q", accumulate(sizes, initial=0))
    import numpy

    offsets = numpy.zeros(len(sizes) + 1, "q")
    numpy.cumsum(sizes, out=offsets[1:])
    return offsets
