#!/usr/bin/env python3
"""Compares the formats of languages with the compilers and interpreters of this machine.

    python3 tools/check_languages.py [--seed N] [--literals N] [LANGUAGE..]

For each language it makes random and hostile literals, and asks the language's own compiler or
interpreter which of them are integers, and of which value. The built program is asked the same,
under the fields that tools/languages.txt says. Where they differ, a pattern of that file has to
fit, so that docs/FORMATS.md lists it; a difference that it doesn't list is printed, and then the
status is 1. What isn't on the machine is passed over with a sentence. A sign comes first only where
it belongs to the literal.

It writes into a folder of its own below the system's temporary one. Needs Python 3.11.
"""
from __future__ import annotations

import argparse
import collections
import random
import re
import subprocess
import sys
from dataclasses import dataclass

import formats_page
import language_judges as judges
from language_judges import Answers, Judge, c_compiler, postgres
from row_data import BUILT, LANGUAGES, Group, groups_of, made, positive
from run_rows import field_line


# ---- the languages

@dataclass
class Language:
    """A language, what of it is asked, and of what its texts are made: separators, ends, and signs
    that belong to it. Texts that fit `unasked` aren't asked, nor those with more digits of radix 16
    than `longest`: some judges print 31 bits alone. The widest type of the judges has `bits`."""

    name: str
    judges: dict[str, Judge]
    separators: str
    ends: str
    signs: str = ""
    unasked: str = ""
    longest: int = 24
    bits: int = 128


GCC = c_compiler(["gcc", "-std=c17", "-fmax-errors=0"])
CLANG = c_compiler(["clang", "-std=c17", "-w", "-ferror-limit=0"])
C23 = {"gcc -std=c2x": c_compiler(["gcc", "-std=c2x", "-fmax-errors=0"]),
       "clang -std=c2x": c_compiler(["clang", "-std=c2x", "-w", "-ferror-limit=0"])}
CPP14 = {"g++ -std=c++14": c_compiler(["g++", "-std=c++14", "-fmax-errors=0"], "x.cpp"),
         "clang++ -std=c++14":
             c_compiler(["clang++", "-std=c++14", "-w", "-ferror-limit=0"], "x.cpp")}
ASKED = [
    Language("c", {"gcc -std=c17": GCC, "clang -std=c17": CLANG}, "_", "u L ul", bits=64),
    Language("c_decimal", {"gcc -std=c17": GCC}, "_", "u L ul", bits=64),
    Language("c_octal", {"gcc -std=c17": GCC}, "_", "u L ul", bits=64),
    Language("c_hexadecimal", {"gcc -std=c17": GCC}, "_", "u L ul", bits=64),
    Language("c23", {**C23}, "'''_", "u L ul", bits=64),
    Language("cpp14", {**CPP14}, "'''_", "u L ul", bits=64),
    # (mcs takes `_` among decimal digits for something else: 067_4 is 6744 to it)
    Language("csharp", {"mcs": judges.MCS}, "_", "u L ul f", unasked="[0-9]+_.*", bits=64),
    Language("java", {"javac": judges.JAVAC}, "_", "l L u f", longest=8),
    Language("kotlin", {"kotlinc": judges.KOTLINC}, "_", "l L u f", longest=8),
    Language("rust", {"rustc": judges.RUSTC}, "_", "u8 u128 i64 f32"),
    Language("go", {"go": judges.GO}, "_", "u i", bits=64),
    Language("ada", {"gnatmake": judges.GNAT}, "_", "E E1 #", longest=8),
    Language("vhdl", {"ghdl": judges.GHDL}, "_", "E E1 #", longest=8),
    Language("assembler_hexadecimal", {"nasm": judges.NASM}, "_", "h h h H b d", longest=8),
    Language("haskell", {"ghci": judges.GHCI}, "_", "e e1"),
    Language("python", {"python3": judges.PYTHON}, "_", "l L j"),
    Language("ruby", {"ruby": judges.RUBY}, "_", "r i d", "+-"),
    Language("javascript", {"node": judges.NODE}, "_", "n N e e1 . .0"),
    Language("ocaml", {"ocaml": judges.OCAML}, "_", "l L n u", "-"),
    Language("json", {"Python's json": judges.PYTHON_JSON}, "_", "e e1 . .0", "+-"),
    Language("json5", {"node's json5": judges.JSON5}, "_", "e e1 . .0", "+-"),
    Language("yaml", {"node's yaml": judges.YAML}, "_", "e e1 . .0", "+-"),
    Language("sql", {"PostgreSQL before 16": postgres({"1": 1, "1_0": None})}, "_", "e e1 . .0",
             "+-"),
    Language("sql_2023", {"PostgreSQL from 16 on": postgres({"1": 1, "1_0": 10})}, "_",
             "e e1 . .0", "+-"),
    Language("toml", {"Python's tomllib": judges.PYTHON_TOML}, "_", "e e1 . .0", "+-"),
]


# ---- literals

PREFIXES = ["", "", "", "", "0", "0", "0x", "0X", "0o", "0O", "0b", "0B", "00"]
DIGITS = {"x": "0123456789abcdefABCDEF", "o": "01234567", "b": "01"}


def digits(rng: random.Random, prefix: str, separator: str) -> str:
    """Some digits that mostly go with a prefix, with separators at any place."""
    alphabet = DIGITS.get(prefix[1:].lower(), "0123456789")
    count = rng.choice([0, 1, 1, 2, 2, 3, 4, 6, 8, 16, 20, 24])
    found = "".join(rng.choice(alphabet) for _ in range(count))
    for _ in range(rng.choice([0, 0, 0, 1, 1, 2, 3])):
        at = rng.randint(0, len(found))
        found = found[:at] + separator + found[at:]
    return found


def literal(rng: random.Random, language: Language) -> str:
    """One text: a literal as it may be, or bytes at random."""
    separator, ends = rng.choice(language.separators), language.ends.split()
    if rng.random() < 0.2:
        alphabet = "00011789aAfFxXoObB" + language.separators + "".join(ends)
        return "".join(rng.choice(alphabet) for _ in range(rng.randint(1, 6)))
    prefix = rng.choice(PREFIXES)
    text = prefix + digits(rng, prefix, separator)
    if ends and rng.random() < 0.15:
        text += rng.choice(ends)
    if language.signs and rng.random() < 0.3:
        text = rng.choice(language.signs) + text
    return text


def literals(rng: random.Random, language: Language, count: int) -> list[str]:
    """Distinct texts, none too long, and none a character between quotes."""
    found: dict[str, None] = {}
    while len(found) < count:
        text = literal(rng, language)
        is_asked = re.fullmatch(r"[uL]?'.*'|" + language.unasked, text) is None
        if text and is_asked and len(re.findall(r"[0-9a-fA-F]", text)) <= language.longest:
            found[text] = None
    return list(found)


# ---- the program

def ours(group: Group, texts: list[str], is_signed: bool) -> Answers:
    """What the program answers under the fields of a language."""
    fields = group.fields or ()
    lines = [field_line(*field).decode() for field in fields]
    lines += [f"c {'i' if is_signed else 'u'}128 {text}" for text in texts]
    source = "\n".join(lines) + "\n"
    ran = subprocess.run(BUILT[:1], input=source, capture_output=True, text=True, check=True)
    answers = ran.stdout.split("\n")[:-1]
    if answers[:len(fields)] != ["ok"] * len(fields):
        sys.exit(f"{group.name}: the program refuses a field")
    return {text: number_of(answer) for text, answer in zip(texts, answers[len(fields):])}


def number_of(answer: str) -> int | None:
    """The number of an answer, None of a fault."""
    word, _, rest = answer.partition(" ")
    return int(rest) if word == "ok" else None


# ---- comparing

def kind_of(our: int | None, their: int | None, bits: int) -> str | None:
    """How two answers differ: `more` is read here only, `less` there only, `otherwise` as another
    value. A judge may refuse a number that no type of its language has."""
    if our == their or (their is None and our is not None and our.bit_length() > bits):
        return None
    return "more" if their is None else "less" if our is None else "otherwise"


def is_listed(group: Group, kind: str, text: str) -> bool:
    """Whether docs/FORMATS.md lists such a difference at a text."""
    return any(re.fullmatch(pattern, text) for pattern in formats_page.patterns(group, kind))


def compared(language: Language, group: Group, name: str, texts: list[str]) -> int:
    """Prints where a judge and the program differ, and counts what FORMATS.md doesn't list."""
    judge = language.judges[name]
    our, their = ours(group, texts, bool(language.signs)), judge.ask(texts)
    counts: collections.Counter[str] = collections.Counter()
    others = []
    for text in texts:
        kind = kind_of(our[text], their[text], language.bits)
        if kind and not is_listed(group, kind, text):
            their |= judge.ask([text])  # (by itself: an error of another line may have hit it)
            kind = kind_of(our[text], their[text], language.bits)
        if kind and not is_listed(group, kind, text):
            others.append(f"  {text}: here {our[text]}, there {their[text]}")
        elif kind:
            counts[kind] += 1
    read = sum(value is not None for value in their.values())
    counted = [f"{counts[kind]} {kind}" for kind in formats_page.HEADINGS if counts[kind]]
    print(f"{language.name}: {name} reads {read} of {len(texts)}; differences that FORMATS.md "
          f"lists: {', '.join(counted) or 'none'}; others: {len(others)}", flush=True)
    print("\n".join(others[:40]), end="\n" if others else "")
    return len(others)


def other_differences(language: Language, group: Group, seed: int, count: int) -> int:
    """Asks all judges of a language, and counts the differences that FORMATS.md doesn't list."""
    texts = literals(random.Random(f"{seed} {language.name}"), language, count)
    others = 0
    for name, judge in language.judges.items():
        if judge.is_there():
            others += compared(language, group, name, texts)
        else:
            print(f"{language.name}: {name} isn't on this machine, and was passed over")
    return others


def main() -> int:
    """The command line."""
    parser = argparse.ArgumentParser(
        description=__doc__, formatter_class=argparse.RawDescriptionHelpFormatter)
    parser.add_argument("--seed", type=int, default=1)
    parser.add_argument("--literals", type=positive, default=2000, help="how many of each language")
    parser.add_argument("languages", nargs="*")
    chosen = parser.parse_args()
    groups = {group.name: group for group in groups_of(LANGUAGES)}
    known = {language.name for language in ASKED}
    if not known.issuperset(chosen.languages):
        sys.exit("nothing is asked for: " + ", ".join(sorted(set(chosen.languages) - known)))
    made(BUILT[0], "lexint")
    asked = [language for language in ASKED if language.name in (chosen.languages or known)]
    others = sum(other_differences(language, groups[language.name], chosen.seed, chosen.literals)
                 for language in asked)
    unasked = ", ".join(sorted(set(groups) - known))
    print(f"not compared, since nothing is asked for them: {unasked}")
    return 1 if others else 0


if __name__ == "__main__":
    sys.exit(main())
