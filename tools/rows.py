#!/usr/bin/env python3
"""Writes the test vectors of tools/rows.txt and tools/languages.txt as theorems.

    python3 tools/rows.py            writes the files
    python3 tools/rows.py --check    writes nothing, and fails where a file is another

Either way each example of docs/GRAMMAR.md has to be one of the rows, and each text of
docs/DIFFERENCES.md that shows an answer has to be a row with that answer.

A group of tools/languages.txt is a language: a function of `lexical_formats` makes its format, a
line of fields says what that format is, and its rows name it. What a user has to know of the
language stands between; tools/formats_page.py makes docs/FORMATS.md of it.

The rows of a group that ask one parser become a theorem, as GROUP_complete, which lists them with
their answers and has the proof `refl`; so do the formats of a group, as GROUP_fault. A line of
fields becomes `LANGUAGE ≡ FORMAT`, with what its name finds. The check computes them, and refuses
a theorem of which a row and the definitions disagree. tools/run_rows.py has the built program
answer the rows, and names the row that is wrong. The files are crates/rows/proofs/rows/FILE.antt,
and proofs/rows.antt, which declares them; proofs/Tables.antt has the words of the theorems. The
texts of the rows under the two presets are written to src/tests/presets.rt too, for the tests:
the program makes no call without a format. Needs Python 3.9 and nothing else.
"""
from __future__ import annotations

import os
import re
import sys
from typing import Dict, Iterable, List

import source
from row_data import (DATA, LANGUAGES, OF_FORMATS, OF_TEXTS, TOP, TYPES, Answer, Bad, File, Format,
                      Group, Row, escaped, read_data, read_row)

GRAMMAR = os.path.join(TOP, "docs", "GRAMMAR.md")
DIFFERENCES = os.path.join(TOP, "docs", "DIFFERENCES.md")
CRATE = os.path.join(TOP, "crates", "rows")
WRITTEN = "Written by tools/rows.py from tools/{}: make rows writes it anew."


def check_examples(path: str, rows: Iterable[Row]) -> None:
    """Ends the program where a document has no row for a line of a table that begins as a row does:
    `| complete | `FIELDS` | TYPE | `TEXT` | ANSWER |`."""
    answers = {row.question(): row.answer for row in rows}
    for number, line in enumerate(source.read(path).splitlines(), 1):
        if re.match(r"\| (complete|partial|format) \| ", line):
            try:
                row = read_row(line.strip().strip("|").strip().replace("`", ""))
            except Bad as bad:
                sys.exit(f"docs/{os.path.basename(path)}:{number}: {bad}: {line}")
            if answers.get(row.question()) != row.answer:
                sys.exit(f"docs/{os.path.basename(path)}:{number}: no row of tools/rows.txt agrees")


def check_answers(path: str, rows: Iterable[Row]) -> None:
    """Ends the program where a document says `TEXT` is `ANSWER`, and no row says so."""
    worked = {(row.text, row.answer.name, tuple(row.answer.numbers)) for row in rows}
    pattern = r"`([^`]*)` (?:is|\|) `(\w+)\(+([-\d, ]*)\)+`"
    for text, name, numbers in re.findall(pattern, source.read(path)):
        if (text.encode(), name, tuple(map(int, numbers.split(", ")))) not in worked:
            page = os.path.basename(path)
            sys.exit(f"docs/{page}: no row says that `{text}` is {name}({numbers})")


# ---- theorems

# where the words of a theorem stand, in the order of their imports
WORDS = {
    "Rattle.std.specs.Prelude":
        "◌≡◌ [] ◌∷◌ codes pos Some None true false Ok Err".split(),
    "Rattle.std.proofs.Common": ["refl"],
    "Rattle.lexical_util.specs.declared.error.Error.TheVariants": OF_TEXTS + OF_FORMATS,
    "Rattle.lexical_util.specs.Format": ["standard", "json"],
    "Rattle.lexical_parse_integer.specs.Computed": ["grammar"],
    "Rattle.lexical_parse_integer.specs.Grammar":
        "complete complete_if_valid partial partial_if_valid".split(),
    "Rattle.lexical_formats.specs.Names": ["format_named"],
    "Rattle.rows.proofs.Tables": ["Answers", "FaultsAre", "minus", *TYPES],
}


def definition_of(row: Row) -> str:
    """The definition that a row asks."""
    if row.parser == "format":
        return "fault"
    return row.parser + ("_if_valid" if row.answer.name in OF_FORMATS else "")


def antt_format(form: Format) -> str:
    """A format as a record over the standard one, or by its name."""
    if isinstance(form, str):
        return form
    fields = "; ".join(f"{name} = {antt_value(name, value)}" for name, value in form)
    return f"record standard {{ {fields} }}" if form else "standard"


def antt_value(name: str, value: int) -> str:
    """The value of a field."""
    if isinstance(value, bool):
        return str(value).lower()
    return str(value) if name == "mantissa_radix" else f"Some {value}"


def antt_text(text: bytes) -> str:
    """The bytes of a text as a list."""
    if any(byte > 127 for byte in text):
        return "(" + " ∷ ".join(map(str, text)) + " ∷ [])"
    return f'codes "{escaped(text)}"'


def antt_answer(parser: str, answer: Answer) -> str:
    """What a theorem says that a parser or a format answers."""
    name, numbers = answer
    if parser == "format":
        return "None" if name == "valid" else f"Some {name}"
    if name != "Ok":
        return " ".join(["Err", f"({name} {numbers[0]})" if numbers else name])
    value = f"pos {numbers[0]}" if numbers[0] >= 0 else f"minus {-numbers[0]}"
    return f"Ok ({value}, {numbers[1]})" if parser == "partial" else f"Ok ({value})"


def antt_row(row: Row) -> str:
    """A row of a theorem, below its remark."""
    asked = [row.type, antt_text(row.text)] if row.parser != "format" else []
    words = ", ".join([antt_format(row.format), *asked, antt_answer(row.parser, row.answer)])
    remark = f"    -- {row.remark}\n" if row.remark else ""
    return f"{remark}    ({words}) ∷\n"


def antt_table(name: str, says: str, rows: List[Row]) -> str:
    """The theorem that lists rows."""
    listed = "".join(map(antt_row, rows))
    return f"{name} : {says} (\n{listed}    [])\nunfolding grammar\n{name} = refl\n"


def antt_group(group: Group) -> str:
    """The theorems of a group: that of its fields, and one for each definition that rows ask."""
    found = []
    asked: Dict[str, List[Row]] = {}
    if group.fields is not None:
        name, form = group.name, antt_format(group.fields)
        found.append(f"{name}_fields : ({name} ≡ {form})\n"
                     f'    × (format_named (codes "{name}") ≡ Some {name})\n'
                     f"{name}_fields = (refl, refl)\n")
    for row in group.rows:
        if not row.is_long:
            asked.setdefault(definition_of(row), []).append(row)
    for definition, rows in asked.items():
        says = "FaultsAre" if definition == "fault" else f"Answers {definition}"
        found.append(antt_table(f"{group.name}_{definition}", says, rows))
    return f"-- ---- {group.shows}\n\n" + "\n".join(found) + "\n" if found else ""


def antt_imports(body: str, languages: List[str]) -> str:
    """The imports of those words that a file has, the names of languages among them."""
    code = re.sub(r'"(?:[^"\\]|\\.)*"|--[^\n]*', "", body)
    there = set(re.findall(r"\w+|≡|∷|\[\]", code))
    imports = ""
    for module, names in {**WORDS, "Rattle.lexical_formats.specs.Languages": languages}.items():
        used = ", ".join(name for name in names if name.strip("◌") in there)
        imports += f"use {module}.{{{used}}}\n" if used else ""
    return imports


def theorems(file: File) -> str:
    """The theorems of a file."""
    body = "".join(map(antt_group, file.groups)).rstrip("\n") + "\n"
    languages = {group.name for group in file.groups if group.fields is not None} - {"json"}
    head = f"-- Test vectors: {file.shows}.\n-- {WRITTEN.format(file.data)}\n"
    return f"{head}{antt_imports(body, sorted(languages))}\n{body}"


# ---- texts

# the longest text that the tests read
MOST_BYTES = 120


def preset_texts(files: List[File]) -> str:
    """The texts of the rows under the presets, a line each, but those that begin another."""
    rows = [row for file in files for group in file.groups for row in group.rows]
    texts = {row.text for row in rows if row.parser != "format" and row.format in ((), "json")
             and len(row.text) <= MOST_BYTES and row.text.isascii()}
    lines = [escaped(text + b"0" if text.endswith(b"\r") else text)  # (a line loses that byte)
             for text in sorted(texts)
             if not any(it.startswith(text) and it != text for it in texts)]
    head = f"// The texts of the test vectors under `STANDARD` and `JSON`.\n// {WRITTEN}\n"
    return (head.format("rows.txt and tools/languages.txt")
            + 'pub(super) const TEXTS: &str = "' + "\n".join(lines) + '";\n')


# ---- the files

def all_files(files: List[File]) -> dict[str, str]:
    """Each path, below the crate, and what stands there."""
    modules = sorted(file.name.capitalize() for file in files)
    declared = "".join(f"pub mod {module}\n" for module in modules)
    written = WRITTEN.format("rows.txt and tools/languages.txt")
    head = f"-- Test vectors, a file for each subject.\n-- {written}\n"
    return {
        "proofs/rows.antt": head + declared,
        "src/tests/presets.rt": preset_texts(files),
        **{f"proofs/rows/{file.name.capitalize()}.antt": theorems(file) for file in files},
    }


def main() -> None:
    """Writes or checks the files."""
    if sys.argv[1:] not in ([], ["--check"]):
        sys.exit(__doc__)
    files = read_data(DATA) + read_data(LANGUAGES)
    rows = [row for file in files for group in file.groups for row in group.rows]
    check_examples(GRAMMAR, rows)
    check_answers(DIFFERENCES, rows)
    out = {os.path.join(CRATE, path): text for path, text in all_files(files).items()}
    stale = [path for path, text in out.items()
             if not os.path.isfile(path) or source.read(path) != text]
    if "--check" in sys.argv[1:]:
        if stale:
            names = ", ".join(os.path.relpath(path, TOP) for path in stale)
            sys.exit(f"make rows writes these otherwise: {names}")
        print(f"{len(rows)} rows, written as {len(out)} files have them")
        return
    for path in stale:
        os.makedirs(os.path.dirname(path), exist_ok=True)
        with open(path, "w", encoding="utf-8") as file:
            file.write(out[path])
    too_long = sum(row.is_long for row in rows)
    print(f"{len(rows)} rows, {too_long} too long for a theorem; {len(stale)} files written")


if __name__ == "__main__":
    try:
        main()
    except OSError as error:
        sys.exit(f"tools/rows.py: {error}")
