"""docs/CONTRACTS.md: every public call with its clauses, as they stand in the source, and a list of
the definitions that the clauses name."""
from __future__ import annotations

import os
import re
from typing import NamedTuple, Optional

import source

VISIBLE = re.compile(r"\bpub\s+(?:(?:const|unsafe|extern\s+\"C\")\s+)*\Z")
HEADER = re.compile(
    r"(?m)^[ \t]*((?:pub(?:\([a-z]+\))?\s+)?(?:unsafe\s+)?(?:impl|trait)\b[^{};]*)\{")
# Of these crates the page has what others hand on: their other calls are the libraries' own.
INNER = ("lexical_digits", "answer_lines", "uses")
GHOST = re.compile(
    r"(?m)^    ((?:ghost (?!use\b)|const |type )[^{;]*(?:\{[^{}]*(?:\{[^{}]*\}[^{}]*)*\})?);")

# What a source file has of the definitions of a crate: the crate, the file and the names.
IMPORT = re.compile(r"(?m)^(?:ghost )?use Rattle\.(\w+)\.specs\.([\w.]+)\.\{([^}]*)\}")


Path = tuple[str, ...]


class Seen(NamedTuple):
    """What users of a crate see: its public modules, by path, and which modules hand a name on
    by `pub use`."""

    modules: set[Path]
    handed: dict[str, set[Path]]

    def is_open(self, module: Path) -> bool:
        """Whether a module can be named from outside."""
        return all(module[:count] in self.modules for count in range(len(module) + 1))

    def has(self, module: Path, name: str) -> bool:
        """Whether a name of a module can be named from outside."""
        return self.is_open(module) or name in self.handed

    def module(self, module: Path, name: str) -> Path:
        """The module by which users name it: its own, or the nearest one that hands it on."""
        if self.is_open(module):
            return module
        by = [it for it in self.handed.get(name, ()) if self.is_open(it)]
        return min(by, key=lambda it: (len(it), it), default=module)


class Entry(NamedTuple):
    """A part of the page: a call, or what a trait or an impl promises."""

    title: str
    doc: str
    text: str

    def lines(self) -> list[str]:
        doc = re.sub(r"\[`([^`]*)`\](?:\([^)]*\))?", r"`\1`", self.doc)
        above = [f"### `{self.title}`", "", *([doc, ""] if doc else [])]
        return [*above, "```rust", self.text, "```", ""]


class Definition(NamedTuple):
    """A definition: its name, the file that has it, and the comment above it."""

    name: str
    file: str
    about: str

    def line(self) -> str:
        """A line of the table: a bar within a comment would part its cells."""
        said = self.about.replace("|", r"\|")
        return f"| `{self.name}` | [{os.path.basename(self.file)}](../{self.file}) | {said} |"


def doc_above(text: str, at: int) -> str:
    """The first paragraph of the comment that stands above a place, attributes between."""
    lines, found = text[:at].split("\n")[:-1], list[str]()
    while lines and re.match(r"\s*(?://|#\[)", lines[-1]):
        line = lines.pop().strip()
        if line.startswith("//"):
            found.insert(0, line.lstrip("/").strip())
    return " ".join("\n".join(found).split("\n\n")[0].split("\n"))


def undented(text: str) -> str:
    """A block of source without the indentation of its first line."""
    lines = text.rstrip().split("\n")
    width = len(lines[0]) - len(lines[0].lstrip())
    return "\n".join(line[min(width, len(line) - len(line.lstrip())):].rstrip() for line in lines)


def seen_of(sources: dict[str, str]) -> Seen:
    """What users of a crate with these sources see."""
    seen = Seen({()}, {})
    for file, text in sources.items():
        path = source.module_of(file)
        seen.modules.update(path + (name,) for name in re.findall(r"(?m)^pub mod (\w+)", text))
        for used in re.findall(r"(?m)^pub use ([^;]*);", text):
            for name in re.findall(r"\w+", used):
                seen.handed.setdefault(name, set()).add(path)
    return seen


def calls_of(file: str, text: str, seen: Seen) -> list[Entry]:
    """The public functions of a source file, and those of its public traits."""
    code = source.blanked(text)
    headers = [(it.start(1), source.closing(code, it.end() - 1), it[1].strip())
               for it in HEADER.finditer(code)]
    found = []
    for it in source.functions_of(file, text):
        line = text.rfind("\n", 0, it.head) + 1
        header = next((name for first, last, name in headers if first <= it.head < last), "")
        is_visible = bool(VISIBLE.search(text[line:it.head])) and " for " not in header
        outer = it.owner[0] if it.owner else it.name
        is_public = is_visible or header.startswith("pub trait")
        module = source.module_of(file)
        if is_public and seen.has(module, outer):
            title = "::".join([*seen.module(module, outer), *it.owner, it.name])
            found.append(Entry(title, doc_above(text, line), undented(text[line:it.body])))
    return found


def promises_of(file: str, text: str, seen: Seen, own_traits: set[str]) -> list[Entry]:
    """What a source file promises beside its functions: the ghost items of public traits and of
    impls of other crates' traits. How contracts see a type (`Model`) is a matter of its own."""
    code, module = source.blanked(text), source.module_of(file)
    found = []
    for it in HEADER.finditer(code):
        header = " ".join(it[1].split())
        if header.startswith("pub trait"):
            name = source.owner_named(header.replace("pub ", "", 1))
            is_told = seen.has(module, name)
            title = "trait " + "::".join([*seen.module(module, name), name])
        else:
            bare = re.sub(r"<[^<>]*>", "", header)
            trait = re.findall(r"\w+", bare.partition(" for ")[0])[-1]
            is_told, title = " for " in bare and trait not in own_traits | {"Model"}, header
        block = text[it.end():source.closing(code, it.end() - 1) - 1]
        items = [undented("    " + one) for one in GHOST.findall(block)] if is_told else []
        if items:
            body = "\n".join("    " + "\n    ".join(one.split("\n")) + ";" for one in items)
            doc = doc_above(text, text.rfind("\n", 0, it.start(1)) + 1)
            found.append(Entry(title, doc, f"{header} {{\n{body}\n}}"))
    return found


def handed_on(top: str, crate: str) -> dict[str, set[Path]]:
    """The names of a crate that others hand on by `pub use`, whichever of their modules does."""
    crates = os.path.join(top, "crates")
    texts = [text for other in os.listdir(crates)
             for text in source.sources_of(os.path.join(crates, other)).values()]
    used = re.findall(rf"(?m)^pub use {crate}::([^;]*);", "\n".join(texts))
    return {name: set() for name in re.findall(r"\w+", " ".join(used))}


def comment_above(text: str, at: int) -> str:
    """The comment directly above a place, as one line."""
    lines, found = text[:at].split("\n")[:-1], list[str]()
    while lines and lines[-1].startswith("--"):
        found.insert(0, lines.pop().lstrip("- "))
    return " ".join(found)


def definition_of(top: str, crate: str, module: str, name: str) -> Optional[Definition]:
    """A definition that a module of a crate has, if it isn't one that it hands on."""
    file = "/".join(("crates", crate, "specs", *module.split("."))) + ".antt"
    if not os.path.isfile(os.path.join(top, file)):
        return None
    text = source.read(os.path.join(top, file))
    begin = re.search(rf"(?m)^(?:[a-z]+ )*{re.escape(name)}\b(?!.*\.\{{)", text)
    return Definition(name, file, comment_above(text, begin.start())) if begin else None


def named_in(top: str, text: str, clauses: str) -> set[Definition]:
    """The definitions that some clauses of a source file name."""
    words = set(re.findall(r"\w+", clauses))
    return {it for crate, module, names in IMPORT.findall(text)
            for name in re.findall(r"\w+", names) if name in words
            for it in [definition_of(top, crate, module, name)] if it}


def named_by_grammar(top: str) -> set[Definition]:
    """The definitions that those shown in docs/GRAMMAR.md name, where the tree has these."""
    file = os.path.join(top, "crates", "lexical_laws", "specs", "Integer.antt")
    text = source.read(file) if os.path.isfile(file) else ""
    return named_in(top, text, text)


def definition_lines(found: set[Definition]) -> list[str]:
    """The list of these definitions, by their names."""
    if not found:
        return []
    return ["## Definitions", "",
            "What the clauses name, and the definitions shown in [GRAMMAR.md](GRAMMAR.md), each "
            "with the comment above it.", "",
            "| Name | File | Comment |", "|---|---|---|", *(it.line() for it in sorted(found)), ""]


def of_crate(top: str, crate: str, named: set[Definition]) -> list[str]:
    """The section of a crate: what it promises and its public calls, file by file. Adds the
    definitions that these name."""
    sources = source.sources_of(os.path.join(top, "crates", crate))
    seen = seen_of(sources) if crate not in INNER else Seen(set(), handed_on(top, crate))
    own_traits = set(re.findall(r"\btrait (\w+)", "\n".join(sources.values())))
    lines = list[str]()
    for file, text in sources.items():
        entries = promises_of(file, text, seen, own_traits) + calls_of(file, text, seen)
        lines += [line for entry in entries for line in entry.lines()]
        named |= named_in(top, text, "\n".join(it.text for it in entries))
    return [f"## {crate}", "", *lines] if lines else []


# What stands above the contracts.
INTRODUCTION = [
    "# Contracts", "",
    "Each public call of each crate with its clauses, word for word as the source has them. "
    "`make docs` writes this page.", "",
    "A clause names definitions of `specs/`: [the list at the end](#definitions) has them, and "
    "`rt lemma NAME`, in a crate that uses it, shows one. Those of std come with the toolchain; "
    "the main ones are explained here. `x.now` is what `x` points to, `self.old` and `self.new` "
    "are that at the call and at the return, `result` is the answer. [PROOFS.md](PROOFS.md) "
    "says in words what the clauses promise together.", "",
    "`≡` is equality, `A × B` both, `A ⊎ B` one of the two, `A → B` that B follows from A, "
    "and `A ↔ B` that each follows from the other. `(x : A) → B` is B for every x, and "
    "`(x : A) × B` for some x. `λ x. e` is a function, `x ∷ xs` a first item and the rest, "
    "`xs ++ ys` one list behind another. `record { f = x; }` has x in its field f, and "
    "`record r { f = x; }` is r but for that field.", "",
    "std's words: `IsTrue b`, `IsNone o`, `IsSome o` and `IsErrOf r e` say which one it is. "
    "`IfOk r P` says that P holds of the value, if `r` is `Ok`; so `IfErr` and `IfSome`. "
    "`OnOk r A` says A, if `r` is `Ok`; so `OnErr`. `IsOkUnless r e` says that e is the only "
    "error; `MatchOption o A P` says A, if o is `None`, and else P of its value; `All P xs` says "
    "P of each item. "
    "`option_map f o` applies f to the value, if there is one. `length`, `map`, `take n` and "
    "`drop n` are those of lists. `slice_get xs i` is the item at `i`, or `None` behind the last, "
    "and `slice_index xs i` that item, or 0; `slice_range xs i j` has those from `i` to before "
    "`j`, and `codes \"-0\"` the bytes of a text. "
    "`bit_at n k` is the bit k of n, 0 or 1, `signed_decimal n` its digits with a minus if it is "
    "negative, `pos n` n as an integer. `YieldsFirstBy` says that an iterator gives the items "
    "of its list in order. Of an integer type `T`, `T.TYPE` is its width and sign, and "
    "`T.number x` the number that `x` is.", "",
    "`Appends old new xs` says that a writer has xs more than before, `Keeps old new` that it "
    "has the same, and `IsAtEnd left` that a reader has nothing left. Where the contract of a "
    "reader or writer doesn't state its bytes, they are `None`, and these three say nothing.",
    "",
]


def page(top: str, crates: list[str]) -> str:
    """The text of docs/CONTRACTS.md."""
    found = list(INTRODUCTION)
    named = set[Definition]()
    for crate in crates:
        found += of_crate(top, crate, named)
    named |= named_by_grammar(top)
    found += definition_lines(named)
    return "\n".join(found).rstrip() + "\n"
