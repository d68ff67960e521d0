"""Columns whose lines have returns, blanks, missing numbers or amounts: tables of one column."""

from __future__ import annotations

from typing import TYPE_CHECKING, Any, Optional, Union

from ._core import ParseError, _array_code
from ._faults import SHOWN, AtFault, Fault, Part
from ._reader import Column, How, Reader
from ._rows import Rows

if TYPE_CHECKING:
    from ._core import NumberType, Text
    from ._fixed import Fixed
    from ._format import Format

# The column's name, which nobody sees.
_NAME = "column"


def _error(fault: Fault) -> ParseError:
    """The exception for a fault, as parse_column raises it for any column."""
    shown = f"{fault.text[:SHOWN]!r}" + (".." if len(fault.text) > SHOWN else "")
    error = ParseError(f"{fault.message} at byte {fault.place}, in field {fault.row + 1}: {shown}")
    error.kind, error.place = fault.kind, fault.place
    error.field, error.start = fault.row, fault.row_start
    return error


def read_lines(
    text: Text,
    type: Union[NumberType, Fixed] = "i64",
    format: Optional[Format] = None,
    has_returns: bool = False,
    allows_returns: bool = False,
    allows_blanks: bool = False,
    missing: Optional[Text] = None,
) -> Any:
    """The numbers of a text's lines, as parse_column describes it: it calls this."""
    _array_code(type)  # (this refuses what is no type of numbers)
    # A line feed ends each row, so that as a separator it parts no cells.
    how = How("\n", has_returns, False, allows_blanks, False, b"" if missing is None else missing,
              allows_returns=allows_returns)
    reader = Reader({_NAME: Column(type, format, missing is not None)}, how, AtFault())
    reader.numpy = None  # (a column's arrays are of the module array)
    rows = Rows(reader)
    rows.read(text, Part())
    if rows.fault:
        raise _error(rows.fault)
    return rows.table()[_NAME]
