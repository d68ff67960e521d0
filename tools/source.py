"""Rattle source files: their functions, where the parts of each stand, and its path."""
from __future__ import annotations

import os
import re
import sys
from typing import NamedTuple

FUNCTION = re.compile(r"\bfn\s+([A-Za-z]\w*)")
CLAUSE = re.compile(r"(?:requires|ensures|ghost)\b[^{}();]*$")
LIFETIME = re.compile(r"'(?:static\b|[a-z_]\w*\b(?!'))")
NO_CODE = re.compile("|".join([
    r"//[^\n]*", r"b?r#\"(?s:.*?)\"#", r"b?\"(?:\\(?s:.)|[^\"\\])*\"", LIFETIME.pattern,
    r"b?'(?:\\(?:x..|u\{[^}]*\}|.)|[^'\\\n])'"]))
BLOCK = re.compile(
    r"(?m)^[ \t]*(?:pub(?:\([a-z]+\))?\s+)?(?:unsafe\s+)?((?:impl|trait|mod)\b[^{};]*)\{")


class Function(NamedTuple):
    """A function of a source file: the names of the blocks around it, and where its parts stand."""

    file: str
    name: str
    owner: list[str]
    head: int
    body: int
    end: int

    def path(self) -> str:
        """Its name as a check prints it, behind the crate's name."""
        return "::".join([*module_of(self.file), *self.owner, self.name])


def read(path: str) -> str:
    try:
        with open(path, encoding="utf-8") as file:
            return file.read()
    except UnicodeDecodeError:
        sys.exit(f"{path} is no UTF-8")


def write(path: str, text: str) -> None:
    """Writes a file. If that fails, the old one stays."""
    with open(f"{path}.new", "w", encoding="utf-8") as file:
        file.write(text)
    os.replace(f"{path}.new", path)


def module_of(file: str) -> tuple[str, ...]:
    """The path of the module that a source file is."""
    parts = file[len("src/"):-len(".rt")].split("/")
    return () if parts in (["lib"], ["main"]) else tuple(parts)


def blanked(text: str) -> str:
    """The text with comments, strings and characters as spaces: each brace that is left is code."""
    def blank(found: re.Match[str]) -> str:
        return found[0] if LIFETIME.fullmatch(found[0]) else re.sub(r"[^\n]", " ", found[0])

    return NO_CODE.sub(blank, text)


def closing(code: str, at: int) -> int:
    """The place behind the brace that closes the one at this place."""
    depth = 0
    for found in re.compile(r"[{}]").finditer(code, at):
        depth += 1 if found[0] == "{" else -1
        if depth == 0:
            return found.end()
    return len(code)


def body_of(code: str, at: int) -> tuple[int, int]:
    """Where a function's body begins and ends, from behind its name.

    Braces of clauses come before it. A function without a body ends at its semicolon.
    """
    head = at
    while found := re.compile(r"[{;]").search(code, at):
        brackets = code[head:found.start()]
        if found[0] == ";" and brackets.count("[") == brackets.count("]"):
            return found.start(), found.end()
        if found[0] == ";":  # (the one in `[u8; 4]` ends nothing)
            at = found.end()
        elif CLAUSE.search(code, head, found.start()):
            at = head = closing(code, found.start())
        else:
            return found.start(), closing(code, found.start())
    return len(code), len(code)


def without_arguments(header: str) -> str:
    """A header without what stands between `<` and `>`."""
    while "<" in header:
        less = re.sub(r"<[^<>]*>", "", header)
        if less == header:
            break
        header = less
    return header


def arguments_of(header: str) -> set[str]:
    """The type arguments that an impl declares."""
    found = re.match(r"impl\s*<((?:[^<>]|<(?:[^<>]|<[^<>]*>)*>)*)>", header.replace("->", "  "))
    bare = re.sub(r"<.*?>+", "", found[1]) if found else ""
    return {it.partition(":")[0].strip() for it in bare.split(",")}


def last_word(path: str) -> str:
    return str(re.findall(r"\w+", path)[-1])


def owner_named(header: str) -> str:
    """What a check calls the block of this header.

    `impl Tr for Ty` is `TyTr`, `impl Tr<Of> for Ty` is `TyTrOf`, one for every type of a bound, as
    `impl<T> Tr for T`, is `AnyTr`, and a type's own methods stand under its name.
    """
    arguments = arguments_of(header)
    of_trait = re.search(r"<(\w+)>\s+for\s", header)
    more = of_trait[1] if of_trait and of_trait[1] not in arguments else ""
    bare = without_arguments(re.sub(r"\bwhere\b(?s:.*)", "", header))
    kind, *words = bare.replace("->", " ").split()
    if kind != "impl":
        return words[0].partition(":")[0]
    trait, _, of_type = " ".join(words).rpartition(" for ")
    of_type = last_word(of_type)
    if not trait:
        return of_type
    by_type = "Any" if of_type in arguments else of_type[0].upper() + of_type[1:]
    return by_type + last_word(trait) + more[:1].upper() + more[1:]


def functions_of(file: str, text: str) -> list[Function]:
    """The functions of a file's text, in order, but those within another."""
    code = blanked(text)
    blocks = [(it.start(1), closing(code, it.end() - 1), owner_named(it[1]))
              for it in BLOCK.finditer(code)]
    found: list[Function] = []
    for it in FUNCTION.finditer(code):
        if not found or it.start() >= found[-1].end:
            owner = [name for first, last, name in blocks if first <= it.start() < last]
            found.append(Function(file, it[1], owner, it.start(), *body_of(code, it.end())))
    return found


def sources_of(folder: str) -> dict[str, str]:
    """The text of each source file of a crate but its tests, by its path in the crate."""
    found = {}
    for at, _, files in sorted(os.walk(os.path.join(folder, "src"))):
        for name in sorted(files):
            file = os.path.relpath(os.path.join(at, name), folder)
            is_of_tests = file.endswith("tests.rt") or "/tests/" in file
            if name.endswith(".rt") and not is_of_tests:
                found[file] = read(os.path.join(at, name))
    return found
