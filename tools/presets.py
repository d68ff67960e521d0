"""The formats of languages in C, C++, Rust, Python and JavaScript, from tools/languages.txt."""
from __future__ import annotations

import json
import os
import textwrap
from typing import Sequence

import field_lists
from field_lists import Field, Region, fields_of, fill, in_bytes, statuses_of
from formats_page import setter
from row_data import BYTES, Group, groups_of

LANGUAGES = os.path.join("tools", "languages.txt")
BEGIN_C = "/* The formats of languages and of data, by make docs from tools/languages.txt. */\n"
END_C = "\n/* Returns JADVOLNI_UNKNOWN_FIELD if"
BEGIN_CPP, END_CPP = "namespace formats {\n", "} // namespace formats\n"
RUST = "bindings/rust/jadvolni/src/languages.rs"
PYTHON = "bindings/python/src/jadvolni/formats.py"
JAVASCRIPT, TYPES = "bindings/js/lists.js", "bindings/js/format.d.ts"


def in_c(groups: list[Group], fields: list[Field]) -> str:
    """A macro for each language: the bytes of its format."""
    return "".join(f"\n/* {group.shows}. */\n#define JADVOLNI_FORMAT_{group.name.upper()} \\\n"
                   f"    {{{in_bytes(fields, **dict(group.fields or ()))}}}\n" for group in groups)


def in_rust(groups: list[Group]) -> str:
    """The module of Rust."""
    lines = ["//! The formats of languages and of data, by `make docs` from `tools/languages.txt`.",
             "", "use crate::Format;", "", "#[rustfmt::skip]", "impl Format {"]
    for group in groups:
        setters = "".join(f"\n        {setter(*field)}" for field in group.fields or ())
        lines += [f"    /// {group.shows}.",
                  f"    pub const {group.name.upper()}: Format = Format::STANDARD{setters};", ""]
    named = "".join(f'\n        ("{group.name}", Format::{group.name.upper()}),'
                    for group in groups)
    lines += ["    /// All of them by their names, as `rust`.",
              f"    pub const LANGUAGES: &'static [(&'static str, Format)] = &[{named}\n    ];",
              "}"]
    return "\n".join(lines) + "\n"


def in_python(groups: list[Group]) -> str:
    """The module of Python."""
    lines = ['"""The formats of languages and of data, by make docs from tools/languages.txt."""',
             "", "from ._format import Format", ""]
    for group in groups:
        call = f"{group.name.upper()} = Format("
        given = ", ".join(f"{name}={bytes([value]) if name in BYTES.values() else value!r}"
                          for name, value in group.fields or ())
        lines += [f"# {group.shows}.",
                  textwrap.fill(f"{call}{given})", 99, subsequent_indent=" " * len(call))]
    return "\n".join(lines) + "\n"


def in_javascript(groups: list[Group], fields: list[Field], statuses: list[Field]) -> str:
    """The lists of JavaScript: fields, statuses by their numbers, and the fields of formats."""
    def given(group: Group) -> dict[str, object]:
        return {name: chr(value) if name in BYTES.values() else value
                for name, value in group.fields or ()}

    def rows(listed: Sequence[object]) -> str:
        return "".join(f"  {json.dumps(row)},\n" for row in listed)

    lists: dict[str, Sequence[object]] = {
        "FIELDS": [{"name": it.name, "kind": it.kind, "meaning": it.about} for it in fields],
        "STATUSES": [[it.name, it.about] for it in statuses],
        "LANGUAGES": [[it.name.upper(), given(it)] for it in groups],
    }
    head = "// Fields, statuses by their numbers, and formats of languages, by make docs.\n"
    return head + "".join(f"\nexport const {name} = [\n{rows(listed)}];\n"
                          for name, listed in lists.items())


def files(top: str, found: dict[str, str]) -> dict[str, str]:
    """The files that list formats, fields or statuses; `found` has what else changes them."""
    groups, fields = groups_of(os.path.join(top, LANGUAGES)), fields_of(top)
    found = field_lists.files(top, found)
    constants = "".join(f"inline constexpr format {it.name} = JADVOLNI_FORMAT_{it.name.upper()};\n"
                        for it in groups)
    types = "".join(f"  /** {it.shows}. */\n  readonly {it.name.upper()}: Format;\n"
                    for it in groups)
    fill(top, found, [Region("include/jadvolni.h", BEGIN_C, END_C, lambda it: in_c(groups, it)),
                      Region("include/jadvolni.hpp", BEGIN_CPP, END_CPP, lambda _: constants),
                      Region(TYPES, "export const formats: {\n", "};\n", lambda _: types)], fields)
    known = statuses_of(top)[:-2]  # (those that a format without reserved bytes can have)
    return {**found, RUST: in_rust(groups), PYTHON: in_python(groups),
            JAVASCRIPT: in_javascript(groups, fields, known)}
