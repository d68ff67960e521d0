"""Reads the test vectors of tools/rows.txt and tools/languages.txt: each says how its rows look."""
from __future__ import annotations

import ctypes
import os
import re
import sys
from dataclasses import dataclass, field
from typing import List, NamedTuple, Optional, Tuple, Union

import reference
import source
from field_lists import fields_of

TOP = os.path.dirname(os.path.dirname(os.path.abspath(__file__)))
DATA = os.path.join(TOP, "tools", "rows.txt")
LANGUAGES = os.path.join(TOP, "tools", "languages.txt")
# The programs that a gate has built, by two compilers.
BUILT = [os.path.join(TOP, "crates", "lexint", "out", name)
         for name in ("lexint", "lexint.by-rattle")]

FLAGS = {it.word: it.name for it in fields_of(TOP) if it.kind == "flag"}
BYTES = {it.word: it.name for it in fields_of(TOP) if it.kind == "punctuation"}
HEADING = re.compile(r"(={2,3}) (\w+): (.+)")
# what a line of tools/languages.txt says to a user, before the rows of its language
NOTE = re.compile(r"(reference|rule|suffixes|more|less|otherwise) \| (.+)")
# The fewest texts of a language that are read, and that are refused.
FEWEST = 4
TYPES = [name.decode() for name in reference.TYPES]
OF_TEXTS = [
    "Overflow", "Underflow", "InvalidDigit", "Empty", "MissingSign", "InvalidPositiveSign",
    "InvalidLeadingZeros",
]
OF_FORMATS = [
    "InvalidMantissaRadix", "InvalidDigitSeparator", "InvalidBasePrefix", "InvalidBaseSuffix",
    "InvalidPunctuation", "InvalidLiteralPrefixes",
]

# the setters of a format, each with its number, byte or truth value
Fields = Tuple[Tuple[str, int], ...]
# a preset by its name, or the fields over the standard one
Format = Union[str, Fields]


def made(path: str, target: str) -> str:
    """A file that a target of make leaves. Where it isn't there, a sentence names the target."""
    name = os.path.basename(path)
    if name.startswith("-"):
        sys.exit(f"there is no option {name}: the words are files that make {target} makes")
    if not os.path.isfile(path):
        sys.exit(f"there is no {path}: make {target} makes one")
    return path


def runnable(path: str, target: str) -> str:
    """The whole path of a program that a target of make leaves: a name alone would be looked for on
    the PATH. A file that can't be started is refused by a sentence."""
    found = os.path.abspath(made(path, target))
    if not os.access(found, os.X_OK):
        sys.exit(f"this is no program: {path}: make {target} makes one")
    return found


def loaded(path: str) -> ctypes.CDLL:
    """The shared library that `make lib` leaves. Another file is refused by a sentence."""
    try:
        return ctypes.CDLL(made(path, "lib"))
    except OSError as error:
        sys.exit(f"this is no shared library: {error}")


def positive(word: str) -> int:
    """How much a command line asks for: a run over nothing would find nothing wrong."""
    if int(word) < 1:
        raise ValueError
    return int(word)


class Bad(Exception):
    """A line of the data that can't be read."""


class Answer(NamedTuple):
    """`Ok`, `valid` or a fault's name, and its numbers."""

    name: str
    numbers: Tuple[int, ...]


class Row(NamedTuple):
    """A parse by 'complete' or 'partial', or a 'format', which has no type and no text."""

    parser: str
    format: Format
    type: str
    text: bytes
    answer: Answer
    remark: str = ""
    is_long: bool = False

    def question(self) -> Tuple[str, Format, str, bytes]:
        """The row without its answer, with its fields in one order."""
        if isinstance(self.format, str):
            return self.parser, self.format, self.type, self.text
        return self.parser, tuple(sorted(self.format)), self.type, self.text


@dataclass
class Group:
    """Rows that show one thing; of a language its fields, and what the pages say of it."""

    name: str
    shows: str
    fields: Optional[Fields] = None
    rows: List[Row] = field(default_factory=list)
    notes: List[Tuple[str, str]] = field(default_factory=list)


@dataclass
class File:
    """Groups on one subject, and the name of the file of data that has them."""

    name: str
    shows: str
    data: str
    groups: List[Group] = field(default_factory=list)


# ---- reading the data

def read_field(word: str) -> Tuple[str, int]:
    """A field, as the setter's name and its value."""
    key, _, value = word.partition("=")
    if word == "digits-optional":
        return "required_mantissa_digits", False
    if word in FLAGS:
        return FLAGS[word], True
    if key == "radix" and value.isdigit():
        return "mantissa_radix", int(value)
    if key in BYTES and re.fullmatch(r"0x[0-9a-f]{2}", value):
        return BYTES[key], int(value, 16)
    if key in BYTES and len(value) == 1:
        return BYTES[key], ord(value)
    raise Bad(f"no such field: {word}")


def read_fields(column: str) -> Fields:
    """The fields over the standard format."""
    return () if column == "standard" else tuple(map(read_field, column.split()))


def read_text(column: str) -> bytes:
    """The bytes of a text: one or more quoted pieces, each repeated where *N follows it."""
    piece = r'"((?:[^"\\]|\\.)*)"(?:\*(\d+))?'
    if not re.fullmatch(rf"{piece}(?: {piece})*", column):
        raise Bad(f"no text: {column}")
    pieces = re.findall(piece, column)
    return b"".join(unescaped(quoted) * int(times or 1) for quoted, times in pieces)


def unescaped(quoted: str) -> bytes:
    """The bytes of what stands between quotes."""
    return re.sub(r"\\(x[0-9a-f]{2}|.)", unescape, quoted).encode("latin-1")


def unescape(escape: re.Match[str]) -> str:
    """The character of an escape."""
    what = escape[1]
    known = {'"': '"', "\\": "\\", "0": "\0", "t": "\t", "r": "\r", "n": "\n"}
    if what not in known and len(what) == 1:
        raise Bad(f"no escape: \\{what}")
    return known[what] if what in known else chr(int(what[1:], 16))


def read_answer(column: str, parser: str) -> Answer:
    """An answer of a parser or of a format."""
    found = re.fullmatch(r"(\w+)(?:\((-?\d+)(?:, (\d+))?\))?", column)
    if not found:
        raise Bad(f"no answer: {column}")
    numbers = tuple(int(number) for number in found.groups()[1:] if number is not None)
    wanted = dict.fromkeys(OF_FORMATS, 0)
    if parser == "format":
        wanted["valid"] = 0
    else:
        wanted.update(dict.fromkeys(OF_TEXTS, 1), Ok=2 if parser == "partial" else 1)
    if wanted.get(found[1]) != len(numbers):
        raise Bad(f"no answer of {parser}: {column}")
    return Answer(found[1], numbers)


def read_row(line: str, language: str = "json") -> Row:
    """One row, which may name the format of JSON or of a language."""
    line, _, remark = line.partition(" # ")
    columns = [column.strip() for column in line.split(" | ")]
    is_long = columns[-1] == "long"
    if len(columns) < 3 + is_long:
        raise Bad("no row")
    parser, named, *asked, last = columns[:-1] if is_long else columns
    form: Format = named
    if named not in ("json", language):
        form = read_fields(named)
    answer = read_answer(last, parser)
    if parser == "format" and not asked:
        return Row(parser, form, "", b"", answer, remark.strip(), is_long)
    if parser in ("complete", "partial") and len(asked) == 2 and asked[0] in TYPES:
        return Row(parser, form, asked[0], read_text(asked[1]), answer, remark.strip(), is_long)
    raise Bad("no row of a parser and a type that there are")


class Reader:
    """Reads a file of data, line by line."""

    def __init__(self, data: str) -> None:
        """DATA: the file's name."""
        self.data = data
        self.files: List[File] = []
        self.names: set[str] = set()
        self.answers: dict[object, Answer] = {}

    def line(self, line: str) -> None:
        """Puts a file or a group behind the others, or what a line says into the last group."""
        heading = HEADING.fullmatch(line)
        if heading and heading[1] == "===":
            self.files.append(File(heading[2], heading[3], self.data))
        elif heading and heading[2] in self.names:
            raise Bad("a second group of that name")
        elif heading:
            self.names.add(heading[2])
            self.files[-1].groups.append(Group(heading[2], heading[3]))
        elif line.strip() and not line.startswith("#"):
            self.entry(line, self.files[-1].groups[-1])

    def entry(self, line: str, group: Group) -> None:
        """What the pages say of a language, its fields, or a row."""
        note = NOTE.fullmatch(line)
        if note:
            group.notes.append((note[1], note[2]))
        elif line.startswith(f"fields | {group.name} | "):
            group.fields = read_fields(line.split(" | ")[2])
        else:
            row = read_row(line, group.name)
            if self.answers.setdefault(row.question(), row.answer) != row.answer:
                raise Bad("the same question has another answer above")
            group.rows.append(row)


def read_data(path: str) -> List[File]:
    """The files of tools/rows.txt or tools/languages.txt. It ends the program at a bad line."""
    reader = Reader(os.path.basename(path))
    for number, line in enumerate(source.read(path).split("\n"), 1):
        try:
            reader.line(line)
        except Bad as bad:
            sys.exit(f"tools/{reader.data}:{number}: {bad}: {line}")
    for group in (group for file in reader.files for group in file.groups if path == LANGUAGES):
        read = sum(row.answer.name == "Ok" for row in group.rows)
        if min(read, len(group.rows) - read) < FEWEST:
            sys.exit(f"tools/{reader.data}: {group.name}: fewer than {FEWEST} texts that are read, "
                     "or that are refused")
    return reader.files


def groups_of(*paths: str) -> List[Group]:
    """The groups of files of data."""
    return [group for path in paths for file in read_data(path) for group in file.groups]


def escaped(text: bytes) -> str:
    """A text between quotes, with the escapes that Rust and the prover's language share."""
    known = {0: "\\0", 9: "\\t", 10: "\\n", 13: "\\r", 34: '\\"', 92: "\\\\"}
    return "".join(known.get(byte) or (chr(byte) if 32 <= byte < 127 else f"\\x{byte:02x}")
                   for byte in text)
