#!/usr/bin/env python3
"""Tests of documents.py and of what it stands on, over a small repository that they write.

Each break has to be seen: a document that is old, a marker that names nothing, a link that leads
nowhere, a page that is too long. What is written well shows in the pages of the repository itself.
"""
from __future__ import annotations

import os
import shutil
import sys
import tempfile
import unittest

sys.dont_write_bytecode = True

import calls_page  # noqa: E402
import check_pages  # noqa: E402
import documents  # noqa: E402
import field_lists  # noqa: E402
import presets  # noqa: E402

SOURCE = """//! Halves of numbers.
#![tactic(auto)]

/// Half of a number, rounded down.
///
/// `3` gives 1.
pub fn half(x: u32) -> u32
    ensures { result ≡ x / 2 }
{
    x / 2
}
"""
FILES = {
    ".gitignore": "out/\n*.o\n",
    "crates.txt": "# The crates.\nsmall:\n",
    "crates/small/src/lib.rt": SOURCE,
    "crates/small/src/inner.rt": "// Inside.\npub fn inner() {}\n",
    "crates/small/out/README.md": "made\n",
    "crates/small/must-fail/half_is_a_third.edit": "",
    "docs/GUIDE.md": """# Guide

How to halve, 7,001 times.

<!-- block: crates/small/src/lib.rt: half -->
```rust
old
```
""",
}
LANGUAGES = """# Literals.
=== small: small languages
== tally: Tally
reference | The Book of Tally, 1
rule | Digits alone.
less | .*[tT] | An end such as `t`.
fields | tally | no-plus separator=' internal
complete | tally | u8 | "1'2" | Ok(12)
complete | tally | u8 | "1t"  | InvalidDigit(1) # unlike: 1
"""
CONTRACTS, GUIDE, FORMATS = "docs/CONTRACTS.md", "docs/GUIDE.md", "docs/FORMATS.md"
GOOD_PAGE = """# A page, with `code`

[there](#a-page-with-code), [again](#twice-1), [below](docs/GUIDE.md#guide), [out](https://a.b/c)

`src/inner.rt`, `crates/small/`, `must-fail/half_*.edit`, `python3 crates/small/src/lib.rt`,
[a folder](crates/small), `out/made.log`, `a.field`

- [Halves](docs/GUIDE.md#guide): 7,001 `u32`, no `9`

## Twice
## Twice
```
[a link of code](nowhere.md) `nowhere.md`
$ printf 'c u8 256\\nc u8 7\\n' | lexint
err Overflow 2
ok 7
$ true
```
"""


def write(top: str, files: dict[str, str]) -> None:
    for path, text in files.items():
        os.makedirs(os.path.dirname(os.path.join(top, path)), exist_ok=True)
        with open(os.path.join(top, path), "w", encoding="utf-8") as file:
            file.write(text)


class OverRepository(unittest.TestCase):
    """Tests over the small repository, in a folder of their own."""

    def setUp(self) -> None:
        room = tempfile.TemporaryDirectory(prefix="test-documents-")
        self.addCleanup(room.cleanup)
        self.top = room.name
        write(self.top, FILES)

    def documents(self) -> dict[str, str]:
        """The documents, which have no fault."""
        faults: list[str] = []
        found = documents.documents(self.top, faults)
        self.assertEqual(faults, [])
        return found

    def old(self) -> list[str]:
        return sorted(documents.old_ones(self.top, self.documents()))

    def test_old_documents(self) -> None:
        self.assertEqual(self.old(), [CONTRACTS, GUIDE])
        write(self.top, self.documents())
        self.assertEqual(self.old(), [])
        write(self.top, {"crates/small/src/lib.rt": SOURCE.replace("≡ x / 2", "≡ x / 2 + 0")})
        self.assertEqual(self.old(), [CONTRACTS, GUIDE])

    def test_a_marker_that_names_nothing(self) -> None:
        write(self.top, {GUIDE: FILES[GUIDE].replace(": half", ": third")})
        faults: list[str] = []
        documents.documents(self.top, faults)
        self.assertEqual(len(faults), 1)
        self.assertTrue(faults[0].startswith(GUIDE))

    def test_names_that_are_handed_on(self) -> None:
        self.assertNotIn("inner", self.documents()[CONTRACTS])
        handed = "mod inner;\npub mod outer;\n\n"
        write(self.top, {
            "crates/small/src/lib.rt": SOURCE.replace("/// Half", handed + "/// Half", 1),
            "crates/small/src/outer.rt": "//! Outside.\npub use crate::inner::inner;\n"})
        self.assertIn("### `outer::inner`", self.documents()[CONTRACTS])

    def test_definitions(self) -> None:
        self.assertNotIn("## Definitions", self.documents()[CONTRACTS])
        imports = "ghost use Rattle.small.specs.Halves.{half_of, third_of};\n\n"
        used = SOURCE.replace("/// Half", imports + "/// Half", 1).replace("x / 2 }", "half_of x }")
        write(self.top, {
            "crates/small/src/lib.rt": used,
            "crates/small/specs/Halves.antt":
                "-- a third\npub third_of : ℕ → ℕ\n\n-- half of a number,\n-- or a | bar\n"
                "abbrev pub half_of : ℕ → ℕ\nhalf_of x = x / 2\n"})
        page = self.documents()[CONTRACTS]
        self.assertEqual(page.splitlines()[-1], "| `half_of` | [Halves.antt](../crates/small/specs/"
                         "Halves.antt) | half of a number, or a \\| bar |")
        self.assertNotIn("third_of", page)

    def test_formats(self) -> None:
        self.assertNotIn(FORMATS, self.documents())
        write(self.top, {"tools/languages.txt": LANGUAGES})
        page = self.documents()[FORMATS]
        write(self.top, {FORMATS: page})
        self.assertNotIn(FORMATS, self.old())
        write(self.top, {FORMATS: page.replace("12", "13")})
        self.assertIn(FORMATS, self.old())

    def test_versions(self) -> None:
        text = 'least = "1.81"\nversion = "1.2.0"\nagain = "1.2.0"\n'
        good = {name: text for name in check_pages.VERSIONED}
        write(self.top, {"CHANGELOG.md": "# Changelog\n\n## 1.2.0\n\n## 1.1.0\n", **good})
        self.assertEqual(check_pages.wrong_versions(self.top), [])
        for name in check_pages.VERSIONED:
            for other in (text.replace("1.2.0", "1.1.0", 1), "version 1.1.0, a port\n", "none\n"):
                write(self.top, {**good, name: other})
                wrong = check_pages.wrong_versions(self.top)
                self.assertEqual([it.partition(":")[0] for it in wrong], [name])

    def test_names_of_functions(self) -> None:
        code = {
            "crates/small/src/lib.rt": "pub fn half_of(x: u32) -> u32 // and not third_of\n",
            "include/a.h": "half_u8(x);\n",
            "tools/a.py": "def fourth_of(x): pass\n",
        }
        write(self.top, code)
        words = check_pages.code_words(self.top, [*code, "README.md"])

        def wrong(name: str) -> list[str]:
            return check_pages.wrong_functions("README.md", f"# A\n`{name}`\n", words)

        for name in ("half_of", "half_of()", "u32::half_of", "half_T", "a half_of", "_of", "half_",
                     "half", check_pages.LACKING[0]):
            self.assertEqual(wrong(name), [])
        for name in ("third_of", "fourth_of", "third()", "third::half_of", "half_T_of"):
            self.assertEqual(len(wrong(name)), 1)


class OfFields(unittest.TestCase):
    """The lists of fields: each has every field, and a field more is missed."""

    def test_each_list_has_each_field(self) -> None:
        fields = field_lists.fields_of(documents.TOP)
        self.assertEqual([field.bit for field in fields if field.kind == "punctuation"], [1, 2, 4])
        files = field_lists.files(documents.TOP, {})
        for file in {region.file for region in field_lists.REGIONS}:
            for field in fields:
                self.assertIn(field.name, files[file], file)

    def test_a_field_more_is_missed(self) -> None:
        more = field_lists.Field("later_flag", "flag", "What is to come.")
        for region in field_lists.REGIONS[:5]:
            self.assertIn("later_flag", region.written([more]), region.file)
        self.assertIn("/* Flag: what is to come. */", field_lists.in_c([more]))

    def test_a_field_more_is_written_at_once(self) -> None:
        with tempfile.TemporaryDirectory(prefix="test-documents-") as top:
            for path in documents.files_of(documents.TOP):
                os.makedirs(os.path.dirname(os.path.join(top, path)), exist_ok=True)
                shutil.copy(os.path.join(documents.TOP, path), os.path.join(top, path))
            with open(os.path.join(top, field_lists.LIST), "a", encoding="utf-8") as file:
                file.write("later_flag | flag | later | What is to come.\n")
            faults: list[str] = []
            documents.written(top, faults)
            wanted = presets.files(top, documents.documents(top, faults))
            self.assertEqual((faults, documents.old_ones(top, wanted)), ([], []))
            for it in field_lists.COUNTS:
                count = wanted[it.file].split(it.begin)[1].split(it.end)[0]
                self.assertEqual(count, str(len(field_lists.fields_of(top))), it.file)


class OfCalls(unittest.TestCase):
    """The calls that are slower than at the baseline, and why."""

    COUNTS = """# What was counted.
case\tbaseline\tkept\tratio
read | u8 | - | "7"\t100\t103\t1.03
read | u8 | c | "07"\t100\t200\t2.00
put | u8 | - | "7"*100\t100\t150\t1.50
put | u8 | - | "8"\t100\t90\t0.90
put | u8 | - | "9"\t\t90\t
"""
    CAUSES = """# Why.
== A look: it looks.
read | * | c | *

== A step: it steps as before.
read | *
"""

    def test_each_has_its_cause(self) -> None:
        with tempfile.TemporaryDirectory(prefix="test-documents-") as top:
            write(top, {calls_page.KEPT: self.COUNTS, calls_page.CAUSES: self.CAUSES})
            page = "<!-- measured: make docs writes this from bench/calls.tsv -->\nold\n" \
                   "<!-- end of what was measured -->\n"
            found = calls_page.filled(top, calls_page.PAGE, page)
        groups = [part.splitlines() for part in found.split("\n**")[1:]]
        self.assertEqual([it[0].partition("**")[0] for it in groups],
                         ["A look", "A step", calls_page.UNKNOWN.name])
        self.assertEqual([it[4] for it in groups], [
            '| `read` | `u8 c "07"` | 100 | 200 | 2.00 |',
            '| `read` | `u8 - "7"` | 100 | 103 | 1.03 |',
            '| `put` | `u8 - "7"*100` | 100 | 150 | 1.50 |'])
        self.assertIn("Of 4 calls: at least 3% fewer instructions", found)
        self.assertIn("baseline, 1; at least 3% more, 3.", found)


class OfPages(unittest.TestCase):
    """Tests of what is asked of a page."""

    def faults(self, text: str) -> list[str]:
        """What is wrong with a page, but that nobody says how many words its neighbour may have."""
        pages = {"README.md": text, GUIDE: FILES[GUIDE]}
        clauses = check_pages.clauses_of(["fn half_of(x: u8)\n    ensures low { a }\n{ x }\n"])
        found = check_pages.faults(pages, [*FILES, "README.md"], {"half_of"}, clauses)
        return [it for it in found if not it.startswith(f"{GUIDE}: say in")]

    def test_a_good_page(self) -> None:
        self.assertEqual(self.faults(GOOD_PAGE), [])

    def test_wrong_pages(self) -> None:
        wrong = ["[a](docs/GONE.md)", "[a](docs/GUIDE.md#gone)", "[a](#gone)", "`src/gone.rt`",
                 "`make src/gone.rt`", "`gone/`", "`half_of` and `third_of`",
                 "- 7,00 [halves](docs/GUIDE.md)\n", "`half_of: low` and `half_of: high`",
                 "7 mutants", "word " * check_pages.BUDGETS["README.md"]]
        for text in wrong:
            self.assertEqual(len(self.faults(GOOD_PAGE + text)), 1, text[:40])
        self.assertEqual(len(self.faults(GOOD_PAGE.replace("ok 7", "ok 8"))), 1)

    def test_definitions_of_modules(self) -> None:
        table = ("| Module | Its definitions, in `specs/` |\n|---|---|\n"
                 "| `a` | `Half`; `Third` of [other](../other/README.md) |\n| `b` | `Gone` |\n")
        found = check_pages.wrong_definitions("crates/small/README.md", table,
                                              {"crates/small/specs/Half.antt"})
        self.assertEqual(found, ["crates/small/README.md: specs/ has no Gone.antt"])

    def test_words(self) -> None:
        made = ("<!-- block: a.rt: all -->\n```rust\nmade by a tool\n```\n"
                "<!-- measured: x -->\n1 2 3\n<!-- end of what was measured -->\n")
        text = "one, two - `three`\n" + made + "| four |\n"
        self.assertEqual(check_pages.words_of(text), 4)
        self.assertEqual(len(check_pages.too_long({GUIDE: 1})), 1)


if __name__ == "__main__":
    unittest.main()
