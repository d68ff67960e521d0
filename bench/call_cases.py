"""The cases of bench/calls.txt, and what the programs that make the calls are given of them."""
from __future__ import annotations

import os
import random
import sys
from typing import NamedTuple

HERE = os.path.dirname(os.path.abspath(__file__))
TOP = os.path.dirname(HERE)
sys.path.insert(0, os.path.join(TOP, "tools"))

import field_lists  # noqa: E402
import tables  # noqa: E402
from columns import Number, digits, realistic  # noqa: E402
from row_data import LANGUAGES, Bad, groups_of, read_fields, read_text  # noqa: E402

CASES = os.path.join(HERE, "calls.txt")
# The words that say how a text of many numbers is read, in the order in which a program reads their
# numbers.
HOW = ("separator", "rows", "columns", "returns", "quotes", "blanks", "skips", "width", "records",
       "lacks", "part", "cell")
# Those of a fixed-point number, which C's calls alone are asked for.
FIXED = ("point", "places", "fewer")
# The words that stand for one of these and its number.
WORDS = {"missing": "lacks=1", "unread": "lacks=2", "ignored": "lacks=3", "lines": "separator=10",
         "commas": "separator=44"}
# What the numbers of made texts come from.
SEED = 7
# A program makes the calls of C, and another all others.
OF_C = "jadvolni_"


class Case(NamedTuple):
    """A call on a text: its line, the section that it stands in, and what a program is given."""

    name: str
    section: str
    is_c: bool
    given: bytes


def short(random_: random.Random) -> int:
    """A number of one to nine digits."""
    return digits(random_, random_.randint(1, 9))


def formats() -> dict[str, dict[str, int]]:
    """The formats of languages by their names: the fields that differ from the standard format."""
    return {group.name: dict(group.fields or ()) for group in groups_of(LANGUAGES)}


def format_bytes(word: str, named: dict[str, dict[str, int]]) -> str:
    """The bytes of a format, with commas between them."""
    given = named[word] if word in named else dict(read_fields(word))
    listed = field_lists.fields_of(TOP)
    return ",".join(str(int(given.get(it.name, it.standard))) for it in listed)


def read_how(words: str) -> dict[str, int]:
    """How a text is read, by the words that say so."""
    found = dict.fromkeys(HOW + FIXED, 0)
    for word in words.split():
        key, _, value = WORDS.get(word, word).partition("=")
        if key not in found:
            raise Bad(f"no such word: {word}")
        found[key] = int(value or 1)
    return found


def numbers_of(kind: str, columns: int) -> list[Number]:
    """What draws the numbers of each column."""
    draws: dict[str, list[Number]] = {
        "ledger": tables.LEDGER, "realistic": [realistic] * columns, "short": [short] * columns}
    if kind not in draws:
        raise Bad(f"no such text: {kind}")
    if not 1 <= columns <= len(draws[kind]):
        raise Bad(f"a made text has from 1 column on, and one of ledger up to {len(tables.LEDGER)}")
    return draws[kind][:columns]


def made_cell(draw: Number, asked: dict[str, str], random_: random.Random) -> str:
    """A cell with a number, or with none, within quotes, or behind a blank."""
    number = str(draw(random_))
    if random_.randrange(100) < int(asked.get("missing", 0)):
        number = ""
    if "quoted" in asked:
        return f'"{number}"'
    return f" {number}" if "blanks" in asked and random_.randrange(100) < 60 else number


def made_text(words: list[str], how: dict[str, int]) -> bytes:
    """A table of numbers that look random: `ledger`, `realistic` or `short`, and what differs."""
    kind, *more = words
    asked = {key: value for key, _, value in (word.partition("=") for word in more)}
    random_ = random.Random(SEED)
    draws = numbers_of(kind, how["columns"])
    if "rows" not in asked:
        raise Bad("a made text needs rows=N")
    end = "\r\n" if how["returns"] else "\n"
    before, last = {**asked, "missing": "0"}, asked
    rows = [[made_cell(draw, before, random_) for draw in draws[:-1]]
            + [made_cell(draws[-1], last, random_)] for _ in range(int(asked["rows"]))]
    return "".join(",".join(row) + end for row in rows).encode()


def row_count(how: dict[str, int], text: bytes) -> int:
    """How many numbers or rows there is room for: those of the text, if it isn't said."""
    between = b"\n" if how["columns"] else bytes([separator(how)])
    return how["rows"] or text.count(between) + 1


def separator(how: dict[str, int]) -> int:
    """The byte between two cells or fields: of cells a comma, if it isn't said."""
    return how["separator"] or ord("," if how["columns"] else "\n")


def case_of(line: str, section: str, named: dict[str, dict[str, int]]) -> Case:
    """The case of a line: CALL | TYPE | FORMAT | TEXT, or HOW before the text."""
    if len(line.split(" | ")) not in (4, 5):
        raise Bad("no case")
    call, kind, form, *more = line.split(" | ")
    how = read_how(" ".join(more[:-1]))
    text = read_text(more[-1]) if more[-1].startswith('"') else made_text(more[-1].split(), how)
    how["separator"], how["rows"] = separator(how), row_count(how, text)
    is_c = call.startswith(OF_C)
    words = [call, kind, format_bytes("standard" if form == "-" else form, named),
             ",".join(str(how[key]) for key in HOW + (FIXED if is_c else ())), str(len(text))]
    return Case(line, section, is_c, " ".join(words).encode() + b" " + text + b"\n")


def read_cases(path: str = CASES) -> list[Case]:
    """The cases of a table, no two alike. It ends the program at a bad line, or without one."""
    named, section, found = formats(), "", dict[str, Case]()
    with open(path, encoding="ascii") as lines:
        for number, line in enumerate(map(str.strip, lines), 1):
            if line.startswith("== "):
                section = line[3:]
            elif line and not line.startswith("#"):
                try:
                    case = case_of(line, section, named)
                except (Bad, KeyError, ValueError) as bad:
                    sys.exit(f"{path}:{number}: {bad}: {line}")
                if found.setdefault(line, case) is not case:
                    sys.exit(f"{path}:{number}: it stands there before: {line}")
    if not found:
        sys.exit(f"{path}: no case")
    return list(found.values())
