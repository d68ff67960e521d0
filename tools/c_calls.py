"""The library's C calls from Python, by the shared library and the header, for tests alone.

    python3 tools/c_calls.py LIBRARY    compares the test vectors with a shared library

What the struct of a format looks like, and which number each status is, is read from
include/jadvolni.h, so that a header and a library that disagree show here.
"""
from __future__ import annotations

import ctypes
import os
import re
import sys
from dataclasses import replace
from typing import Callable, Iterator, NamedTuple, Optional

import row_data
from reference import BYTE_FIELDS, FLAG_FIELDS, STANDARD, TYPES, Fault, Format, Value
from reference_lines import form_of

TOP = row_data.TOP
HEADER = os.path.join(TOP, "include", "jadvolni.h")
BEFORE = 77  # the number that the pointer points to before each call


def without_comments(source: str) -> str:
    """A source of C without what stands in its comments."""
    return re.sub(r"/\*.*?\*/", "", source, flags=re.S)


with open(HEADER, encoding="utf-8") as header:
    DECLARED = without_comments(header.read())


def fields_of_format() -> Iterator[tuple[str, type[ctypes.Array[ctypes.c_uint8] | ctypes.c_uint8]]]:
    """The fields of jadvolni_format, as ctypes has them."""
    body = DECLARED.split("typedef struct jadvolni_format {")[1].split("}")[0]
    for name, length in re.findall(r"uint8_t (\w+)(?:\[(\d+)\])?;", body):
        yield name, ctypes.c_uint8 * int(length) if length else ctypes.c_uint8


class CFormat(ctypes.Structure):
    """jadvolni_format."""

    _fields_ = list(fields_of_format())


MISSING = {*FLAG_FIELDS, *BYTE_FIELDS} - {name for name, _ in fields_of_format()}
if MISSING:  # ctypes would take a field that isn't there without a word
    raise ImportError(f"include/jadvolni.h lacks {', '.join(sorted(MISSING))}")


class CResult(ctypes.Structure):
    """jadvolni_result."""

    _fields_ = [("status", ctypes.c_uint32), ("place", ctypes.c_size_t)]


STATUSES: dict[int, str] = {
    int(number): name.title().replace("_", "")
    for name, number in re.findall(r"JADVOLNI_(\w+) = (\d+)",
                                   DECLARED.split("} jadvolni_status;", maxsplit=1)[0])
}
NUMBERS = {name: number for number, name in STATUSES.items()}
RESERVED = len(CFormat().reserved)
# The bit that says of a byte of punctuation that it is the byte 0.
NUL_BITS = dict(zip(BYTE_FIELDS, map(int, re.findall(r"JADVOLNI_NUL_IS_\w+ (\d)", DECLARED))))


class Answer(NamedTuple):
    """What a call returned, and the number that it left at the pointer."""

    status: str
    place: int
    number: int


def expected(answer: Value | Fault, text: bytes, is_partial: bool) -> Answer:
    """What a call has to answer, by what the reference does."""
    if isinstance(answer, Value):
        return Answer("Ok", answer.stop if is_partial else len(text), answer.value)
    return Answer(answer.name, answer.place or 0, BEFORE)


def c_format(form: Format, flag: int = 1) -> CFormat:
    """A format as C writes it, where a flag that is set is that byte."""
    made = CFormat(mantissa_radix=form.mantissa_radix)
    for name in BYTE_FIELDS:
        byte = getattr(form, name)
        setattr(made, name, byte or 0)
        made.nul_is_punctuation |= NUL_BITS[name] if byte == 0 else 0
    for name in FLAG_FIELDS:
        setattr(made, name, flag if getattr(form, name) else 0)
    return made


def format_of(group: row_data.Group) -> CFormat:
    """The format of a language."""
    return c_format(replace(STANDARD, **dict(group.fields or ())))


class Library:
    """A shared library, with its calls."""

    def __init__(self, path: str) -> None:
        """PATH: where libjadvolni.so is."""
        self.library = row_data.loaded(path)
        self.library.jadvolni_format_error.restype = ctypes.c_uint32
        forms = [what + under for what in ("", "_front", "_partial")
                 for under in ("", "_with_format")]
        self.calls = {name.decode() + form: self.call_of(f"jadvolni_parse_{name.decode()}{form}")
                      for name in TYPES for form in forms}

    def call_of(self, name: str) -> Callable[..., CResult]:
        """A call by its name."""
        function = self.library[name]
        function.restype = CResult
        call: Callable[..., CResult] = function
        return call

    def format_error(self, form: CFormat) -> str:
        """The status of a format."""
        return STATUSES[self.library.jadvolni_format_error(ctypes.byref(form))]

    def parse(self, name: str, text: bytes, is_partial: bool,
              form: Optional[CFormat] = None) -> Answer:
        """A parse as the type of that name, under the standard format where none is handed in."""
        return self.answer(name, "_partial" if is_partial else "", text, form)

    def answer(self, name: str, what: str, text: bytes, form: Optional[CFormat]) -> Answer:
        """What the call for `what` of a text answers."""
        kept = ctypes.create_string_buffer(BEFORE.to_bytes(16, "little"), 16)
        under = () if form is None else (ctypes.byref(form),)
        call = name + what + ("_with_format" if under else "")
        result = self.calls[call](text, ctypes.c_size_t(len(text)), *under, kept)
        kind = TYPES[name.encode()]
        number = int.from_bytes(kept.raw[:kind.bits // 8], "little", signed=kind.signed)
        return Answer(STATUSES[result.status], result.place, number)


def answer_to(row: row_data.Row) -> Answer:
    """What a call has to answer to a row."""
    name, numbers = row.answer
    if name != "Ok":
        return Answer(name, numbers[0] if numbers else 0, BEFORE)
    return Answer("Ok", numbers[1] if row.parser == "partial" else len(row.text), numbers[0])


def wrong_answers(library: Library, row: row_data.Row) -> Iterator[str]:
    """What the calls answer otherwise than a row does."""
    form = c_format(form_of(row))
    if row.parser == "format":
        status = library.format_error(form)
        wanted = "Ok" if row.answer.name == "valid" else row.answer.name
        if status != wanted:
            yield f"{row.question()}: {status}, and not {wanted}"
        return
    for under in (form, None) if row.format == () else (form,):
        answer = library.parse(row.type, row.text, row.parser == "partial", under)
        if answer != answer_to(row):
            yield f"{row.question()}: {answer}, and not {answer_to(row)}"


def compare_rows(library: Library) -> str:
    """Runs the test vectors of tools/rows.txt through the calls, and says how many there are."""
    rows = [row for group in row_data.groups_of(row_data.DATA) for row in group.rows]
    wrong = [said for row in rows for said in wrong_answers(library, row)]
    if wrong:
        raise AssertionError("\n".join(wrong))
    return f"{len(rows)} rows"


if __name__ == "__main__":
    if len(sys.argv) != 2:
        sys.exit("usage: tools/c_calls.py LIBRARY, which is a shared one")
    print(compare_rows(Library(sys.argv[1])))
