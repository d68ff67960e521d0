"""docs/FORMATS.md: the integers of each language, with the rows of tools/languages.txt. What stands
before its first table is written by hand."""
from __future__ import annotations

import os
import re

import source
from row_data import Group, escaped, groups_of

DATA = os.path.join("tools", "languages.txt")
# A wrong number harms more than a fault, so texts with another value come first.
HEADINGS = {"otherwise": "Another value", "more": "Reads more", "less": "Reads less"}
UNLIKE = "unlike: "
PAGE = os.path.join("docs", "FORMATS.md")
TABLE = "| Language | Function |"


def setter(name: str, value: int) -> str:
    """The call of the setter of a field, in Rust."""
    if isinstance(value, bool) or name == "mantissa_radix":
        return f".{name}({str(value).lower()})"
    byte = chr(value).replace("'", "\\'") if 32 < value < 127 else f"\\x{value:02x}"
    return f".{name}(Some(b'{byte}'))"


def notes_of(group: Group, word: str) -> list[str]:
    """What the data say of a language under a word, without the pattern."""
    texts = [text for kind, text in group.notes if kind == word]
    return [text.split(" | ", 1)[1] for text in texts] if word in HEADINGS else texts


def patterns(group: Group, word: str) -> list[str]:
    """The patterns of the texts in which a format and its language differ."""
    return [text.split(" | ", 1)[0] for kind, text in group.notes if kind == word]


def chain(group: Group) -> list[str]:
    """The builder chain of a language's format."""
    setters = [f"    {setter(*field)}" for field in group.fields or ()]
    return ["```rust", "NumberFormatBuilder::new()", *setters, "    .build_strict()", "```", ""]


def table(group: Group) -> list[str]:
    """The rows of a language."""
    lines = ["| Text | Type | Answer | In the language, where that differs |", "|---|---|---|---|"]
    for row in group.rows:
        note = row.remark[len(UNLIKE):] if row.remark.startswith(UNLIKE) else ""
        text = escaped(row.text)
        answer = f"{row.answer.name}({', '.join(map(str, row.answer.numbers))})"
        lines.append(f"| `\"{text}\"` | {row.type} | `{answer}` | {note} |")
    return [*lines, ""]


def unsaid(group: Group) -> list[str]:
    """In what a format and its language differ."""
    lines = [f"- {heading}: {text}"
             for word, heading in HEADINGS.items() for text in notes_of(group, word)]
    return ["Known deviations:", "", *(lines or ["- Nothing that is known."]), ""]


def section(group: Group) -> list[str]:
    """What is said of a language."""
    reference = "; ".join(notes_of(group, "reference"))
    suffixes = " ".join(notes_of(group, "suffixes")) or "None."
    return [
        f"## {group.shows}", "", f"`lexical_formats::{group.name}()`", "",
        *notes_of(group, "rule"), "",
        f"Reference: {reference}.", "", f"Suffixes: {suffixes}", "",
        *chain(group), *table(group), *unsaid(group),
    ]


def anchor(title: str) -> str:
    """The name under which a heading is found."""
    return re.sub(r"[^\w\- ]", "", title.lower()).replace(" ", "-")


def page(top: str) -> str | None:
    """The text of docs/FORMATS.md, none where there are no data."""
    path = os.path.join(top, DATA)
    if not os.path.isfile(path):
        return None
    groups, written = groups_of(path), os.path.join(top, PAGE)
    front = source.read(written).partition(TABLE)[0] if os.path.isfile(written) else ""
    lines = [front + TABLE, "|---|---|"]
    lines += [f"| [{group.shows}](#{anchor(group.shows)}) | `{group.name}` |" for group in groups]
    for group in groups:
        lines += ["", *section(group)[:-1]]
    return "\n".join(lines).rstrip() + "\n"
