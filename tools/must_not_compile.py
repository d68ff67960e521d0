#!/usr/bin/env python3
"""Tries the programs of must_not_compile.txt, and says how many end as they have to.

usage: tools/must_not_compile.py

Those that use the libraries wrongly have to be refused, each by the error and at the line that it
names, and their twins have to be proved. A must-fail edit can't say such a thing, since it changes
a crate's own code. The programs are written into a crate over lexical_parse_integer in a temporary
folder, with copies of the libraries and of what is kept of their proofs.
"""
from __future__ import annotations

import os
import re
import shutil
import subprocess
import sys
import tempfile
from typing import NamedTuple

import source

TOP = os.path.dirname(os.path.dirname(os.path.abspath(__file__)))
RT = os.environ.get("RT", "rt")
BELOW = ("lexical_util", "lexical_digits", "lexical_parse_integer")
CRATES = ("lexical_util:\nlexical_digits: lexical_util\n"
          "lexical_parse_integer: lexical_util lexical_digits\nprograms: " + " ".join(BELOW) + "\n")
PROGRAMS = os.path.join(TOP, "tools", "must_not_compile.txt")


class Program(NamedTuple):
    """A text with its name, and the error that it has to meet, None where it has to be proved."""

    name: str
    error: str | None
    text: str


def program_of(part: str) -> Program:
    name, _, text = part.partition("\n")
    found = re.match(r"error: (.*)\n", text)
    rest = text[found.end():] if found else text
    return Program(name, found[1] if found else None, rest.strip("\n") + "\n")


def programs() -> tuple[str, list[Program]]:
    """What all programs begin with, and each of them."""
    found = list(map(program_of, re.split(r"(?m)^== ", source.read(PROGRAMS))[1:]))
    wrong = [it.name for it in found if it.error and not re.search(r"(?m)// here$", it.text)]
    if not found or wrong:
        sys.exit(f"{PROGRAMS}: {', '.join(wrong) or 'no program'}: there is no line `// here`")
    return found[0].text, found[1:]


def repository(root: str) -> str:
    """Makes a repository with the libraries, and answers the folder of the crate over them."""
    shutil.copy(os.path.join(TOP, "HANDLES"), root)
    with open(os.path.join(root, "crates.txt"), "w", encoding="utf-8") as file:
        file.write(CRATES)
    for crate in BELOW:
        of, to = os.path.join(TOP, "crates", crate), os.path.join(root, "crates", crate)
        shutil.copytree(of, to, ignore=shutil.ignore_patterns("incremental", "must-fail"))
    folder = os.path.join(root, "crates", "programs")
    os.makedirs(os.path.join(folder, "src"))
    return folder


def check(folder: str, text: str) -> tuple[int, str]:
    """How a check of this text ends, and what it says."""
    with open(os.path.join(folder, "src", "lib.rt"), "w", encoding="utf-8") as file:
        file.write(text)
    ran = subprocess.run([RT, "check", "--jobs", "1"], cwd=folder, stdin=subprocess.DEVNULL,
                         stdout=subprocess.PIPE, stderr=subprocess.STDOUT, errors="replace")
    return ran.returncode, ran.stdout


def is_refused(said: str, text: str, error: str) -> bool:
    """Whether the error is reported at the line that ends in `// here`."""
    lines = text.split("\n")
    line = next(number for number, it in enumerate(lines, 1) if it.endswith("// here"))
    places = re.findall(rf"(?m)^(?:note: )?src/lib\.rt:{line}:\d+: (.*)", said)
    return any(it.startswith(error) for it in places)


def failures(folder: str, head: str, others: list[Program]) -> list[str]:
    """What ended otherwise than it has to: the twins are proved together, the others one by one."""
    found = []
    twins = [it.text for it in others if it.error is None]
    status, said = check(folder, "\n".join([head, *twins]))
    if status or "\nlogic=proved" not in said:
        found.append(f"the programs that use the libraries well are not proved:\n{said[-2000:]}")
    for name, error, own in others:
        if error is not None:
            text = f"{head}\n{own}"
            status, said = check(folder, text)
            if status != 1 or not is_refused(said, text, error):
                found.append(f"{name}: not refused by '{error}' at its line:\n{said[-2000:]}")
    return found


def main() -> int:
    """Says what ends otherwise, and answers the exit status."""
    if sys.argv[1:]:
        print(__doc__, file=sys.stderr)
        return 2
    head, others = programs()
    with tempfile.TemporaryDirectory(prefix="must-not-compile-") as root:
        failed = failures(repository(root), head, others)
    for it in failed:
        print(f"tools/must_not_compile.py: {it}", file=sys.stderr)
    print(f"{len(others)} programs, {len(failed)} failed")
    return 1 if failed else 0


if __name__ == "__main__":
    try:
        sys.exit(main())
    except OSError as error:
        sys.exit(f"tools/must_not_compile.py: {error}")
