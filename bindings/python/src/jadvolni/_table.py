"""Tables that were read, and their columns."""

from __future__ import annotations

from typing import TYPE_CHECKING, Any, Collection, NamedTuple, Optional, Union

from ._arrow import Arrow, ArrowTable
from ._texts import TextColumn

if TYPE_CHECKING:
    import numpy
    import pandas


class Sparse(NamedTuple):
    """The numbers of a column that may miss some, which are 0, and the bits that say which.

    The bits are in Arrow's order: bit k & 7 of byte k >> 3, where bit 0 is the lowest, is 1 if row
    k has a number. Arrow's libraries accept the column as it is, by `__arrow_c_array__`.
    """

    numbers: Any
    bits: Any

    @property
    def present(self) -> Any:
        """Whether each row has a number: a NumPy array if NumPy is installed, otherwise a list."""
        count = len(self.numbers)
        try:
            import numpy
        except ImportError:
            return [bool(self.bits[row >> 3] >> (row & 7) & 1) for row in range(count)]
        bits = numpy.asarray(self.bits)
        return numpy.unpackbits(bits, count=count, bitorder="little").view(bool)

    def tolist(self) -> list[Optional[int]]:
        """The numbers as a list, with None where one is missing."""
        pairs = zip(self.numbers.tolist(), self.present)
        return [number if is_there else None for number, is_there in pairs]

    def to_numpy(self) -> numpy.ma.MaskedArray[Any, Any]:
        """The numbers as a masked array over the same memory; the mask is set where one is missing.

        So the mean of 5 and a missing number is 5.
        """
        import numpy

        masked: Any = numpy.ma.MaskedArray
        found: numpy.ma.MaskedArray[Any, Any] = masked(self.numbers, ~self.present)
        return found

    def to_pandas(self) -> pandas.Series[Any]:
        """The numbers as a pandas Series over the same memory, such as Int64, with its mask."""
        import pandas

        return pandas.Series(_extension_array(self), copy=False)

    def __arrow_c_schema__(self) -> object:
        return Arrow({"": self}, False).__arrow_c_schema__()

    def __arrow_c_array__(self, requested_schema: Optional[object] = None) -> tuple[object, object]:
        return Arrow({"": self}, False).__arrow_c_array__()


class Table(dict[str, Any]):
    """The columns that were read, by their names: each an array, of NumPy if it is installed and
    otherwise of the module array, or a Sparse of them if numbers may be missing. A column of texts
    is a TextColumn.

    No method copies a number.
    """

    # How many bad rows were skipped.
    bad_rows = 0

    def to_numpy(self) -> dict[str, Any]:
        """Each column as a NumPy array, masked if numbers may be missing. Texts are objects."""
        import numpy

        return {name: values.to_numpy() if isinstance(values, (Sparse, TextColumn))
                else numpy.asarray(values) for name, values in self.items()}

    def to_pandas(self, categories: Union[bool, Collection[str]] = False) -> pandas.DataFrame:
        """A pandas DataFrame. If numbers may be missing, a column is Int64 or the like. Texts are
        objects, or categories: all of them with True, or those in a set of names."""
        import pandas

        chosen = self._chosen(categories)
        columns = {name: _for_pandas(values, name in chosen) for name, values in self.items()}
        return pandas.DataFrame(columns, copy=False)

    def _chosen(self, categories: Union[bool, Collection[str]]) -> Collection[str]:
        """The columns that become categories. ValueError is raised for one without texts."""
        texts = {name for name, values in self.items() if isinstance(values, TextColumn)}
        if isinstance(categories, bool):
            return texts if categories else ()
        if isinstance(categories, (str, bytes)) or not isinstance(categories, Collection):
            kind = type(categories).__name__
            raise TypeError(f"categories has to be True, False or a set of names, and not {kind}")
        for name in categories:
            if name not in texts:
                raise ValueError(f"categories has {name!r}, which is no column of texts")
        return categories

    def arrow(self, name: Optional[str] = None) -> Arrow:
        """The table, or one of its columns, for what accepts Arrow's capsules but isn't a dict."""
        return ArrowTable(self) if name is None else Arrow({name: self[name]}, False)

    def __arrow_c_schema__(self) -> object:
        return ArrowTable(self).__arrow_c_schema__()

    def __arrow_c_array__(self, requested_schema: Optional[object] = None) -> tuple[object, object]:
        return ArrowTable(self).__arrow_c_array__()

    def __arrow_c_stream__(self, requested_schema: Optional[object] = None) -> object:
        return ArrowTable(self).__arrow_c_stream__()


def _for_pandas(values: Any, is_category: bool) -> Any:
    """A column as pandas has it."""
    import numpy

    if isinstance(values, Sparse):
        return _extension_array(values)
    if isinstance(values, TextColumn):
        return values.categorical() if is_category else values.to_numpy()
    return numpy.asarray(values)


def _extension_array(values: Sparse) -> Any:
    """A column as pandas has numbers of which some are missing."""
    import numpy
    import pandas

    return pandas.arrays.IntegerArray(numpy.asarray(values.numbers), ~values.present)
