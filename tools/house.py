#!/usr/bin/env python3
"""Checks the measures that the source keeps, and prints what is over them, a line each.

    python3 tools/house.py          exit status 1 where something is found

- A clause (`requires`, `ensures`, an invariant, a ghost member or law) and a definition have at
  most 100 columns. Imports, comments and proofs may be wider.
- A file of source, definitions, proofs or tools has at most 800 lines.
- A folder has at most 40 files. A `must-fail` folder has as many as there are edits, since edits
  can't stand deeper.
- Of the parser's proofs other crates cite `ForCallers` alone, whose names stay.
- The word readers are lanes of std::simd, and name none of the four functions on whole words. No
  contract can say this, since both ways give the same answers.

It reads all but what runs make.
"""
from __future__ import annotations

import collections
import os
import re
import sys
from typing import Iterable, Iterator, List, Tuple

import source
from documents import TOP, files_of

COLUMNS, LINES, FILES = 100, 800, 40
CLAUSE = re.compile(r"\s*(?:(?:requires|ensures|invariant|decreases)\b|ghost \w+\s*[:=])")
COMMENT = re.compile(r"\s*(?:--|//)")
INNER = re.compile(r"\blexical_parse_integer(?:\.|::)proofs(?:\.|::)(?!ForCallers\b)")
IMPORT = re.compile(r"\s*(?:ghost )?(?:pub )?use ")

# The word readers, what each has to have, and what none may name.
READERS = {
    "crates/lexical_parse_integer/src/algorithm/counted/multi.rt": (
        "match value_of_4lanes(bytes, c.radix())", "match value_of_8lanes(bytes, c.radix())"),
    "crates/lexical_digits/src/lanes.rt": (
        "use std::simd::prelude", "u8x4::from_slice(bytes)", "u8x8::from_slice(bytes)"),
}
WHOLE_WORDS = re.compile(r"\b(?:is|parse)_[48]digits")

Numbered = Tuple[int, str]


def lines_of(name: str) -> List[str]:
    """The lines of a file."""
    return source.read(os.path.join(TOP, name)).splitlines()


def clause_lines(lines: List[str]) -> Iterator[Numbered]:
    """The numbered lines of the clauses and ghost members of a source file."""
    depth = 0
    for number, line in enumerate(lines, 1):
        if depth == 0 and not CLAUSE.match(line):
            continue
        yield number, line
        code = re.sub(r"//.*", "", line)
        depth = max(0, depth + code.count("{") - code.count("}"))


def measured_lines(name: str) -> Iterable[Numbered]:
    """The numbered lines of a file's clauses or definitions, with its imports."""
    if name.endswith(".rt"):
        return clause_lines(lines_of(name))
    if not name.endswith(".antt") or "/specs/" not in name:
        return ()
    return [numbered for numbered in enumerate(lines_of(name), 1) if not COMMENT.match(numbered[1])]


def wide_lines(names: List[str]) -> Iterator[str]:
    """The lines that are too wide."""
    for name in names:
        for number, line in measured_lines(name):
            if len(line) > COLUMNS and not IMPORT.match(line):
                yield f"{name}:{number}: {len(line)} columns, and {COLUMNS} are the most"


def long_files(names: List[str]) -> Iterator[str]:
    """The files that are too long."""
    for name in names:
        if name.endswith((".rt", ".antt", ".py", ".sh")):
            count = len(lines_of(name))
            if count > LINES:
                yield f"{name}: {count} lines, and {LINES} are the most"


def full_folders(names: List[str]) -> Iterator[str]:
    """The folders that have too many files."""
    counts = collections.Counter(os.path.dirname(name) for name in names)
    for folder, count in sorted(counts.items()):
        if count > FILES and os.path.basename(folder) != "must-fail":
            yield f"{folder or '.'}: {count} files, and {FILES} are the most"


def inner_proofs(names: List[str]) -> Iterator[str]:
    """The lines of other crates that cite a proof of the parser which may change."""
    for name in names:
        if name.endswith((".antt", ".rt")) and not name.startswith("crates/lexical_parse_integer/"):
            for number, line in enumerate(lines_of(name), 1):
                if INNER.search(line):
                    yield f"{name}:{number}: of the parser's proofs, cite ForCallers alone"


def other_readers() -> Iterator[str]:
    """What word readers lack, or name of whole words."""
    for name, parts in READERS.items():
        text = "\n".join(lines_of(name))
        yield from (f"{name}: a word reader has no {part}" for part in parts if part not in text)
        yield from (f"{name}: a word reader names {found}" for found in WHOLE_WORDS.findall(text))


def main() -> int:
    """Prints what is found, and answers the exit status."""
    if sys.argv[1:]:
        print(__doc__, file=sys.stderr)
        return 2
    names = files_of(TOP)
    found = [*wide_lines(names), *long_files(names), *full_folders(names), *inner_proofs(names),
             *other_readers()]
    clauses = sum(bool(CLAUSE.match(line)) for name in names if name.endswith(".rt")
                  for _, line in clause_lines(lines_of(name)))
    print("\n".join(found) or (
        f"{clauses} clauses and ghost members within {COLUMNS} columns, no file above {LINES} "
        f"lines, no folder above {FILES} files"))
    return 1 if found else 0


if __name__ == "__main__":
    try:
        sys.exit(main())
    except OSError as error:
        sys.exit(f"tools/house.py: {error}")
