"""Columns and tables by Arrow's PyCapsule protocol, over their own memory."""

from __future__ import annotations

from typing import Any, Mapping, Optional

from ._core import _arrow_array, _arrow_schema, _arrow_stream


def _column(name: str, values: Any) -> tuple[str, str, Any, Any, Any]:
    """What a column's capsules are made of: its name, Arrow's code, numbers, bits or None, and
    None. Of texts, the numbers are offsets of bytes, and their bytes come last."""
    if not isinstance(name, str):
        raise TypeError(f"Arrow wants names that are str, and not {type(name).__name__}")
    if "\0" in name or name.encode("utf-8", "replace").decode() != name:
        raise ValueError(f"Arrow wants names of UTF-8 without NUL, and not {name!r}")
    if hasattr(values, "for_arrow"):
        code, offsets, bits, data = values.for_arrow()
        return name, code, offsets, bits, data
    numbers, bits = values if isinstance(values, tuple) else (values, None)
    try:
        with memoryview(numbers) as view:
            code = {"l": "q", "L": "Q"}.get(view.format, view.format)
            if view.ndim == 1 and view.c_contiguous:
                return name, code, numbers, bits, None
    except TypeError:
        pass
    kind = type(numbers).__name__
    raise TypeError(f"the column {name!r} has to be an array of one dimension, and not {kind}")


class Arrow:
    """Columns for libraries that accept Arrow's capsules.

    The capsules share the memory of the arrays, and keep it alive. A change to an array changes
    what was handed out.
    """

    def __init__(self, columns: Mapping[str, Any], is_table: bool = True) -> None:
        self._columns = tuple(_column(name, values) for name, values in columns.items())
        self._is_table = is_table
        sizes = {len(numbers) - (data is not None) for _, _, numbers, _, data in self._columns}
        if len(sizes) > 1:
            raise ValueError(f"the columns have to be of one length, and not of {sorted(sizes)}")
        self._rows = sizes.pop() if sizes else 0

    def __arrow_c_schema__(self) -> object:
        return _arrow_schema(self._columns, self._is_table)

    def __arrow_c_array__(self, requested_schema: Optional[object] = None) -> tuple[object, object]:
        array = _arrow_array(self._columns, self._is_table, self._rows)
        return self.__arrow_c_schema__(), array


class ArrowTable(Arrow):
    """A table for libraries that accept Arrow's capsules, also as a stream of one array."""

    def __arrow_c_stream__(self, requested_schema: Optional[object] = None) -> object:
        return _arrow_stream(self._columns, self._rows)
