#!/usr/bin/env python3
"""Writes the documents that are made from the source, or says where they aren't as written.

    tools/documents.py           writes docs/CONTRACTS.md, docs/FORMATS.md, the named code blocks
                                 of other documents, the calls of docs/PERF.md that are slower than
                                 at the baseline, the lists of fields and statuses, and the formats
                                 of languages in each language that has calls
    tools/documents.py --check   writes nothing, and ends with status 1 where one of them isn't as
                                 it would write it, or where check_pages.py finds something wrong
    tools/documents.py --words   prints how many words of each page were written by hand

A block is named in a document by the line before it, which names a source file and what is taken
of it:

    <!-- block: crates/uses/src/ledger.rt: Entry::of, total -->

Functions are taken whole, with their doc comments. `all` takes the file's text from its first
`ghost use` or `use` to its first test; `body of NAME` what stands between a function's braces, up
to its first assertion; `imports and body of NAME` the file's `use` lines too; and `whole` the
file's text after the comment that it begins with, `definitions` that after its imports too. `what
it stands on` lists a file of definitions behind those that it imports, in reading order. With `as
CRATE` at the end, `crate::` is that crate's name, as a caller elsewhere writes it. A link to a
function or a definition, as [`read`](lib.rt#L1), gets the line on which that begins.
"""
from __future__ import annotations

import fnmatch
import os
import re
import sys

import calls_page
import check_pages
import contracts_page
import formats_page
import presets
import source

TOP = os.path.dirname(os.path.dirname(os.path.abspath(__file__)))
BLOCK = re.compile(
    r"(?m)^(<!-- block: (?P<file>[^:\n]+): (?P<what>[^\n]*?)(?: as (?P<crate>\w+))? -->\n"
    r"```\w+\n)(?s:.*?)^```$")
# A link to a function or a definition of a source file, with the line on which it begins.
LINE_LINK = re.compile(
    r"(?P<text>\[`(?P<name>[\w:]+)`\]\((?P<file>[^()#\s]+\.(?:rt|antt))#L)\d+")
IMPORTED = re.compile(r"(?m)^(?:pub )?use Rattle\.(\w+)\.specs\.([\w.]+)\.\{")
CODE_LINE = re.compile(r"(?m)^(?!\s*--|(?:pub )?use |\s*$).+")


class Unfit(Exception):
    """A marker that names nothing."""


def files_of(top: str) -> list[str]:
    """Every file of the repository, but what .gitignore leaves out."""
    lines = source.read(os.path.join(top, ".gitignore")).splitlines()
    patterns = [line.strip().strip("/") for line in lines if not line.startswith("#")]
    ignored = [".git", *filter(None, patterns)]

    def is_ours(name: str) -> bool:
        return not any(fnmatch.fnmatch(name, pattern) for pattern in ignored)

    found = []
    for at, folders, names in os.walk(top):
        folders[:] = filter(is_ours, folders)
        found += [os.path.relpath(os.path.join(at, name), top) for name in filter(is_ours, names)]
    return sorted(found)


def crates_of(top: str) -> list[str]:
    """The crates of crates.txt, in its order."""
    text = source.read(os.path.join(top, "crates.txt"))
    lines = [line.split("#")[0].strip() for line in text.splitlines()]
    return [line.split(":")[0].split()[0] for line in lines if line]


def only_function(file: str, text: str, name: str) -> source.Function:
    """The function of this name: a method by its block's name too, as `Entry::of`."""
    found = [it for it in source.functions_of("src/lib.rt", text)
             if it.path() == name or it.name == name]
    if len(found) != 1:
        raise Unfit(f"{file} has {len(found)} functions `{name}`, and not one")
    return found[0]


def begin_of(file: str, text: str, name: str) -> int:
    """Where the function, or the definition, of this name begins."""
    if file.endswith(".rt"):
        return only_function(file, text, name).head
    found = re.search(rf"(?m)^(?:\w+ )?pub (?:record |data )?{name} ", text)
    if not found:
        raise Unfit(f"{file} has no definition `{name}`")
    return found.start()


def function_text(file: str, text: str, name: str) -> str:
    """A function with its doc comment, without the indentation that it has."""
    function = only_function(file, text, name)
    begin = text.rfind("\n", 0, function.head) + 1
    while re.search(r"\n\s*(?:///|#\[)[^\n]*\n\Z", text[:begin]):
        begin = text.rfind("\n", 0, begin - 1) + 1
    return contracts_page.undented(text[begin:function.end])


def body_text(file: str, text: str, name: str) -> str:
    """What stands between the braces of a function, up to its first assertion."""
    function = only_function(file, text, name)
    body = re.split(r"(?m)^\s*assert", text[function.body + 1:function.end - 1])[0]
    return contracts_page.undented(body.strip("\n"))


def definitions_below(top: str, file: str) -> list[str]:
    """The files of definitions that this one imports, directly or not, and then itself."""
    found: list[str] = []
    for crate, path in IMPORTED.findall(source.read(os.path.join(top, file))):
        below = f"crates/{crate}/specs/{path.replace('.', '/')}.antt"
        if os.path.isfile(os.path.join(top, below)):  # (std and what is declared have none)
            found += [it for it in definitions_below(top, below) if it not in found]
    return [*found, file]


def list_of_definitions(top: str, file: str) -> str:
    """These files with their lines, but for imports, comments and empty ones."""
    counts = {it: len(CODE_LINE.findall(source.read(os.path.join(top, it))))
              for it in definitions_below(top, file)}
    lines = [f"{count:4} {it}" for it, count in counts.items()]
    return "\n".join([*lines, f"{sum(counts.values()):4} lines in {len(counts)} files"])


def block_text(top: str, file: str, what: str) -> str:
    """The code that a marker stands for."""
    path = os.path.join(top, file)
    if not os.path.isfile(path):
        raise Unfit(f"there is no file {file}")
    text = source.read(path)
    if what == "whole":
        return re.sub(r"\A(?:/\*(?s:.*?)\*/\n|(?://[^\n]*\n)+)", "", text).strip("\n")
    if what == "what it stands on":
        return list_of_definitions(top, file)
    if what == "definitions":
        return re.sub(r"\A(?:--[^\n]*\n)+(?:(?:pub )?use [^\n]*\n)+", "", text).strip("\n")
    if what == "all":
        code = re.split(r"(?m)^#\[test\]", text)[0]
        code = re.split(r"(?m)^(?=(?:ghost )?use )", code, maxsplit=1)[-1]
        return "#![tactic(auto)]\n\n" + code.strip()
    if what.startswith("imports and body of "):
        imports = "\n".join(re.findall(r"(?m)^use [^;]*;", text))
        return imports + "\n\n" + body_text(file, text, what.removeprefix("imports and body of "))
    if what.startswith("body of "):
        return body_text(file, text, what.removeprefix("body of "))
    return "\n\n".join(function_text(file, text, name.strip()) for name in what.split(","))


def with_blocks(top: str, path: str, faults: list[str]) -> str:
    """A document with its named blocks as the source has them."""
    def fill(marker: re.Match[str]) -> str:
        try:
            code = block_text(top, marker["file"], marker["what"].strip())
        except Unfit as fault:
            faults.append(f"{path}: {fault}")
            return marker[0]
        code = code.replace("crate::", f"{marker['crate']}::") if marker["crate"] else code
        return f"{marker[1]}{code}\n```"

    return BLOCK.sub(fill, source.read(os.path.join(top, path)))


def with_lines(top: str, path: str, text: str, faults: list[str]) -> str:
    """A document whose links to functions and definitions lead to the lines where these begin."""
    def fill(link: re.Match[str]) -> str:
        file = os.path.normpath(os.path.join(top, os.path.dirname(path), link["file"]))
        try:
            code = source.read(file)
            begin = begin_of(link["file"], code, link["name"])
        except (OSError, Unfit) as fault:
            faults.append(f"{path}: {fault}")
            return link[0]
        return f"{link['text']}{code.count(chr(10), 0, begin) + 1}"

    return LINE_LINK.sub(fill, text)


def documents(top: str, faults: list[str]) -> dict[str, str]:
    """The text of each document that is made from the source, wholly or in part."""
    whole = {"docs/CONTRACTS.md": contracts_page.page(top, crates_of(top))}
    formats = formats_page.page(top)
    if formats:
        whole["docs/FORMATS.md"] = formats
    pages = [path for path in files_of(top) if path.endswith(".md") and path not in whole]
    by_hand = {path: with_lines(top, path, with_blocks(top, path, faults), faults)
               for path in pages}
    filled = {path: calls_page.filled(top, path, text) for path, text in by_hand.items()}
    return {**filled, **whole}


def old_ones(top: str, found: dict[str, str]) -> list[str]:
    """The files that aren't as the source has them."""
    def is_old(path: str, text: str) -> bool:
        place = os.path.join(top, path)
        return not os.path.isfile(place) or source.read(place) != text

    return [path for path, text in found.items() if is_old(path, text)]


def checked(found: dict[str, str], faults: list[str]) -> str:
    """Adds what is wrong with the documents, and says in a line what was looked at."""
    old = old_ones(TOP, presets.files(TOP, found))
    faults += [f"{path}: it isn't as the source has it: make docs writes it anew" for path in old]
    files = files_of(TOP)
    sources = [source.read(os.path.join(TOP, it)) for it in files if it.endswith(".rt")]
    faults += check_pages.faults(found, files, check_pages.code_words(TOP, files),
                                 check_pages.clauses_of(sources))
    faults += check_pages.wrong_versions(TOP)
    return f"{len(found)} documents looked at, {len(old)} old; {check_pages.said(found)}"


def write(top: str, wanted: dict[str, str]) -> list[str]:
    """Writes the files that are old, and returns their names."""
    old = old_ones(top, wanted)
    for path in old:
        source.write(os.path.join(top, path), wanted[path])
    return old


def written(top: str, faults: list[str]) -> str:
    """Writes what is old, and says how many files that were. Documents quote lists of fields in the
    source, so these come first."""
    old = write(top, presets.files(top, {}))
    wanted = presets.files(top, documents(top, faults))
    return f"{len(wanted)} files looked at, {len({*old, *write(top, wanted)})} written"


def main(arguments: list[str]) -> int:
    if arguments not in ([], ["--check"], ["--words"]):
        print(__doc__)
        return 2
    faults: list[str] = []
    if arguments == ["--words"]:
        counts = check_pages.counts_of(documents(TOP, faults))
        print("\n".join(f"{count:6} {page}" for page, count in counts.items()))
        return 0
    said = checked(documents(TOP, faults), faults) if arguments else written(TOP, faults)
    print("\n".join([*faults, said]))
    return 1 if faults else 0


if __name__ == "__main__":
    try:
        sys.exit(main(sys.argv[1:]))
    except OSError as error:
        sys.exit(f"tools/documents.py: {error}")
