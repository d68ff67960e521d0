"""What `tools/documents.py --check` asks of pages: names of what is there, true runs, few words.

- A link has to lead to a file of the repository, and its anchor to a heading there. Links to the
  web aren't followed.
- A name in backquotes that looks like a file or a folder has to be the end of the path of one. What
  runs and installers make is in MADE.
- In a README of a crate, a table's column of definitions "in `specs/`" names files of that folder;
  what is of another crate stands before its link.
- A name in backquotes that looks like a function has to stand in the code, and not in the comment
  at a line's end alone. What the Rust crate has, and this repository lacks, is in LACKING. `T`
  stands for the name of a type.
- A `call: clause` in backquotes has to name a clause of a function.
- A run of the program over what `printf` gives it has to answer as the reference of the grammar
  does.
- A figure in a list of README has to stand on the page that its line links to, and a number of
  mutants is how many `.edit` files there are.
- A page has at most as many words as BUDGETS says, and those of BUDGETS have at most MOST_WORDS
  together. What a tool takes from the source or compares with it (blocks, test vectors) and what a
  measurement writes doesn't count. `tools/documents.py --words` prints the counts.
- The newest version of the changelog is that of the header and of the packages.
"""
from __future__ import annotations

import fnmatch
import os
import posixpath
import re
from typing import Iterable

import reference_lines
import source

MOST_WORDS = 10500
BUDGETS = {
    "README.md": 830, "CONTRIBUTING.md": 695, "CHANGELOG.md": 115, "docs/ARCHITECTURE.md": 1440,
    "docs/DECISIONS.md": 1370, "docs/DIFFERENCES.md": 1075, "docs/GRAMMAR.md": 1720,
    "docs/PERF.md": 1200, "docs/PROOFS.md": 1640, "docs/RELEASING.md": 255, "docs/SPEED.md": 445,
}
# The pages that a tool writes whole. A further page of docs/ has to be in one of the two lists.
WRITTEN = ("docs/CONTRACTS.md", "docs/FORMATS.md")
# The most words of any other page: of a crate, a binding, an example.
OF_OTHERS = 1000
MADE = ("out/*", "*/out/*", "build/*", "dist/*", "venv/*", "libjadvolni.*", "liblexical*",
        "Proof.antt", "ledger.txt")
# The folders of the code that pages speak of, and what begins a comment in its files.
CODE_FOLDERS = ("bench/", "bindings/", "crates/", "examples/", "include/", "tests/")
CODE_COMMENTS = {".rt": "//", ".antt": "--", ".rs": "//", ".h": "//", ".hpp": "//", ".c": "//",
                 ".cpp": "//", ".js": "//", ".ts": "//", ".py": "#", ".pyi": "#"}
LACKING = ("char_to_digit_const",)
# The files with the version, in quotes or behind the word, at every place where it is written.
VERSIONED = (
    "README.md", "include/jadvolni.h", "bindings/rust/Cargo.toml", "bindings/rust/Cargo.lock",
    "bindings/rust/jadvolni/Cargo.toml", "bindings/python/pyproject.toml",
    "bindings/js/package.json",
)

FENCE = re.compile(r"(?ms)^(```+)[^\n]*\n.*?^\1[ \t]*$")
CODE = re.compile(r"`([^`\n]+)`")
LINK = re.compile(r"\[(?:[^\[\]]|\[[^\]]*\])*\]\(([^()\s]+)\)")
BLOCK = re.compile(r"(?ms)^<!-- block:[^\n]*-->\n```.*?^```$")
MEASURED = re.compile(r"(?s)<!-- measured: .*?<!-- end of what was measured -->")
COMMENT = re.compile(r"(?s)<!--.*?-->")
EXAMPLES = re.compile(r"(?m)^\| Parser \| Fields \|.*\n(?:\|.*\n)+")
RUN = re.compile(r"(?ms)^\$ printf '([^'\n]*)' \| (?:make run|lexint)\n(.*?)(?=^\$ |^```)")
FILE = re.compile(r"(?:[\w.*-]+/)*[\w*-][\w.*-]*\."
                  r"(?:md|rt|antt|py|sh|txt|mk|edit|c|h|hpp|cpp|rs|toml|json|tsv|svg|in|a|so|log)")
FOLDER = re.compile(r"(?:[\w.*-]+/)+")
# The lines of a table whose last column has definitions.
DEFINITIONS = re.compile(r"(?m)^\|.*in `specs/` \|\n((?:\|.*\n)+)")
FIGURE = re.compile(r"(?<![\w.,-])\d+(?:[.,]\d+)*")
CLAUSE = re.compile(r"(?:\w+::)*([a-z]\w*): (\w+)")
# Several words, or a module or a type before the name, or brackets behind it.
FUNCTION = re.compile(r"(?=\w+_|.*\W)(?:\w+::)*\w+(?:\(\))?")


def prose_of(text: str) -> str:
    """A page without its blocks of code."""
    return FENCE.sub("", text)


def anchors_of(text: str) -> set[str]:
    """The anchors of a page's headings, as GitHub makes them."""
    found: dict[str, int] = {}
    for title in re.findall(r"(?m)^#+ +(.*?) *$", prose_of(text)):
        shown = re.sub(r"\[([^\]]*)\]\([^)]*\)", r"\1", title).lower()
        anchor = re.sub(r"[^\w\- ]", "", shown).replace(" ", "-")
        found[anchor] = found.get(anchor, 0) + 1
    return {anchor + (f"-{number}" if number else "")
            for anchor, count in found.items() for number in range(count)}


def words_of(text: str) -> int:
    """How many words of a page were written by hand."""
    for made in (BLOCK, MEASURED, COMMENT, EXAMPLES):
        text = made.sub("", text)
    return len(re.findall(r"\S*\w\S*", text))


def wrong_links(page: str, text: str, pages: dict[str, str], files: set[str]) -> list[str]:
    """The links of a page that lead nowhere."""
    found = []
    for target in LINK.findall(CODE.sub("", prose_of(text))):
        if re.match(r"[a-z]+:", target):
            continue
        path, _, anchor = target.partition("#")
        place = posixpath.normpath(posixpath.join(posixpath.dirname(page), path)) if path else page
        is_folder = any(it.startswith(place + "/") for it in files)
        if place not in files and not is_folder:
            found.append(f"{page}: there is no {target}")
        elif anchor and place in pages and anchor not in anchors_of(pages[place]):
            found.append(f"{page}: {place} has no heading #{anchor}")
    return found


def names_in(text: str) -> list[str]:
    """What looks like a file or a folder among the names in backquotes."""
    found = []
    for code in CODE.findall(prose_of(text)):
        whole = FILE.fullmatch(code) or FOLDER.fullmatch(code)
        parts = [it for it in code.split() if "/" in it and FILE.fullmatch(it)]
        found += [code] if whole else parts
    return found


def is_there(name: str, files: set[str]) -> bool:
    """Whether a name is the end of a file's path, or of a folder's."""
    pattern = name + "*" if name.endswith("/") else name
    return any(fnmatch.fnmatch(name, it) for it in MADE) or any(
        fnmatch.fnmatch(it, pattern) or fnmatch.fnmatch(it, "*/" + pattern) for it in files)


def wrong_names(page: str, text: str, files: set[str]) -> list[str]:
    """The names of a page that no file has."""
    return [f"{page}: no file is named `{name}`"
            for name in names_in(text) if not is_there(name, files)]


def wrong_definitions(page: str, text: str, files: set[str]) -> list[str]:
    """The files that a README of a crate names as its definitions, and that its specs/ lacks."""
    found = []
    for table in DEFINITIONS.findall(text):
        cells = [re.sub(r"[^;|]*\[", "", line.split(" | ")[-1]) for line in table.splitlines()[1:]]
        names = re.findall(r"`([A-Z]\w*)`", " ".join(cells))
        found += [f"{page}: specs/ has no {it}.antt" for it in names
                  if f"{posixpath.dirname(page)}/specs/{it}.antt" not in files]
    return found


def code_words(top: str, names: list[str]) -> set[str]:
    """The words of the code, but for those of comments."""
    found: set[str] = set()
    for name in names:
        comment = CODE_COMMENTS.get(posixpath.splitext(name)[1])
        if comment and name.startswith(CODE_FOLDERS):
            code = re.sub(f"{comment}.*", "", source.read(os.path.join(top, name)))
            found.update(re.findall(r"\w+", code))
    return found


def has_parts(code: str, words: set[str]) -> bool:
    """Whether the code has every part of a name. Half a name, as `_with_options`, is none."""
    parts = re.findall(r"\w+", re.sub(r"_T(?=_|$)", "_u8", code))
    return all(it in words or it != it.strip("_") for it in parts)


def wrong_functions(page: str, text: str, words: set[str]) -> list[str]:
    """The names of a page that look like functions, and that no code has."""
    names = filter(FUNCTION.fullmatch, CODE.findall(prose_of(text)))
    return [f"{page}: no code has `{name}`"
            for name in names if name not in LACKING and not has_parts(name, words)]


def clauses_of(sources: Iterable[str]) -> set[tuple[str, str]]:
    """The clauses of these source files that have a name, each behind its function's."""
    return {(it.name, clause) for text in sources for it in source.functions_of("src/lib.rt", text)
            for clause in re.findall(r"\b(?:requires|ensures) (\w+) \{", text[it.head:it.body])}


def wrong_clauses(page: str, text: str, clauses: set[tuple[str, str]]) -> list[str]:
    """The names of a page that look like clauses, and that no contract has."""
    found = filter(None, map(CLAUSE.fullmatch, CODE.findall(prose_of(text))))
    return [f"{page}: no contract has `{it[0]}`"
            for it in found if it[0] != "call: clause" and it.groups() not in clauses]


def wrong_runs(page: str, text: str) -> list[str]:
    """The runs of the program that the reference answers in another way."""
    found = []
    for block in FENCE.finditer(text):
        for given, shown in RUN.findall(block[0]):
            output = reference_lines.output_of(given.encode().decode("unicode_escape").encode())
            if output != shown:
                found.append(f"{page}: the run over '{given}' answers {output!r}")
    return found


def wrong_figures(text: str, pages: dict[str, str]) -> list[str]:
    """The figures in README's lists that the pages linked in their lines don't have."""
    found = []
    for line in re.findall(r"(?m)^- .*", text):
        targets = [target.partition("#")[0] for target in LINK.findall(line)]
        there = {it for target in targets for it in FIGURE.findall(pages.get(target, ""))}
        figures = FIGURE.findall(CODE.sub("", LINK.sub("", line))) if targets else []
        lacking = [it for it in figures if it not in there]
        found += [f"README.md: {' and '.join(targets)} lacks {it}" for it in lacking]
    return found


def wrong_mutants(page: str, text: str, files: set[str]) -> list[str]:
    """The numbers of mutants that aren't how many edits the prover has to reject."""
    there = sum(name.endswith(".edit") for name in files)
    return [f"{page}: {said} mutants, and there are {there} edits"
            for said in re.findall(r"(\d+) mutants", text) if int(said) != there]


def too_long(words: dict[str, int]) -> list[str]:
    """The pages with too many words, and those of docs/ without a number in BUDGETS."""
    found = []
    for page, count in words.items():
        if page.startswith("docs/") and page not in BUDGETS:
            found.append(f"{page}: say in tools/check_pages.py how many words it may have")
        most = BUDGETS.get(page, OF_OTHERS)
        if count > most:
            found.append(f"{page}: {count} words by hand, and {most} are the most")
    in_all = sum(words.get(page, 0) for page in BUDGETS)
    if in_all > MOST_WORDS:
        found.append(f"{in_all} words by hand in the pages of BUDGETS, and {MOST_WORDS} at most")
    return found


def wrong_versions(top: str) -> list[str]:
    """The files whose version isn't that of the changelog."""
    changes = source.read(os.path.join(top, "CHANGELOG.md"))
    wanted = set(re.findall(r"(?m)^## (\S+)", changes)[:1])
    found = {name: set(re.findall(r'(?:"|version )(\d+\.\d+\.\d+)["\s,]',
                                  source.read(os.path.join(top, name))))
             for name in VERSIONED}
    return [f"{name}: its version is {' and '.join(sorted(it)) or 'missing'}, "
            f"and that of CHANGELOG.md {' '.join(wanted) or 'missing'}"
            for name, it in found.items() if it != wanted or not it]


def counts_of(pages: dict[str, str]) -> dict[str, int]:
    """The words by hand of each page."""
    return {page: words_of(text) for page, text in sorted(pages.items()) if page not in WRITTEN}


def faults(pages: dict[str, str], names: list[str], words: set[str],
           clauses: set[tuple[str, str]]) -> list[str]:
    """What is wrong with the pages, among the files of the repository, the words of its code and
    the clauses of its contracts."""
    files = {*(name.replace(os.sep, "/") for name in names), *pages}
    found = []
    for page, text in sorted(pages.items()):
        found += wrong_links(page, text, pages, files)
        if page not in WRITTEN:
            found += wrong_names(page, text, files) + wrong_functions(page, text, words)
            found += wrong_definitions(page, text, files) if page.startswith("crates/") else []
            found += wrong_clauses(page, text, clauses) + wrong_runs(page, text)
            found += wrong_mutants(page, text, files)
    found += wrong_figures(pages.get("README.md", ""), pages)
    return found + too_long(counts_of(pages))


def said(pages: dict[str, str]) -> str:
    """How much was looked at, in one line."""
    links = sum(len(LINK.findall(CODE.sub("", prose_of(text)))) for text in pages.values())
    names = sum(len(names_in(text)) for page, text in pages.items() if page not in WRITTEN)
    runs = sum(len(RUN.findall(block[0]))
               for text in pages.values() for block in FENCE.finditer(text))
    words = sum(count for page, count in counts_of(pages).items() if page in BUDGETS)
    return (f"{links} links and {names} names of files, {runs} runs, "
            f"{words} of {MOST_WORDS} words by hand")
