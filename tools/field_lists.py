"""The lists of a format's fields and of statuses, in each language, from two lists.

Fields are those of tools/fields.txt, and what statuses mean is that of bindings/errors.txt.
"""
from __future__ import annotations

import os
import re
import sys
import textwrap
from typing import Callable, NamedTuple

import source

LIST = os.path.join("tools", "fields.txt")
STATUSES = os.path.join("bindings", "errors.txt")
KINDS = ("radix", "punctuation", "flag")
# The fields of the standard format that aren't 0.
STANDARD = {"mantissa_radix": 10, "required_mantissa_digits": True}
# From which status on Rust's errors have a place (or a number), or have none.
PLACES = {"InvalidMantissaRadix": "", "TooFewCells": "(_)", "InvalidTable": "",
          "MisplacedQuote": "(_)", "InvalidFixedRadix": "", "UnknownSuffix": "(_)",
          "InvalidSuffixTable": "", "Unknown": "(_)"}
# The bytes of C's struct but that of nul_is_punctuation.
ROOM = 31


class Field(NamedTuple):
    """A field: its name, kind and meaning, the bit of punctuation, and its word in test vectors."""

    name: str
    kind: str
    about: str
    bit: int = 0
    word: str = ""

    @property
    def type(self) -> str:
        """Its kind, as the name of an enum."""
        return self.kind.title()

    @property
    def variant(self) -> str:
        """Its name, as one of an enum's."""
        return self.name.title().replace("_", "")

    @property
    def standard(self) -> int:
        """The number or truth value that the standard format has."""
        return STANDARD.get(self.name, False)

    @property
    def truth(self) -> str:
        """The truth value that the standard format has, as Rust and Rattle write it."""
        return str(self.standard).lower()

    @property
    def constant(self) -> str:
        """The word of test vectors, as the name of a constant."""
        return self.word.upper().replace("-", "_")

    @property
    def argument(self) -> str:
        """What the setter of a flag takes where its word stands in a test vector."""
        return "(false)" if self.standard else ""


Written = Callable[[list[Field]], str]


class Region(NamedTuple):
    """A part of a file, by the texts before and behind it, and how it is written."""

    file: str
    begin: str
    end: str
    written: Written


def rows_of(top: str, path: str, between: str, count: int) -> list[list[str]]:
    """The lines of a list but its comments, each in `count` parts. Others end the program."""
    rows = []
    try:
        text = source.read(os.path.join(top, path))
    except OSError as error:
        sys.exit(f"{path}: {error.strerror}")
    for number, line in enumerate(text.splitlines(), 1):
        parts = line.split(between)
        if line.startswith("#"):
            continue
        if len(parts) != count or path == LIST and parts[1] not in KINDS:
            sys.exit(f"{path}:{number}: not as the lines above: {line}")
        rows.append(parts)
    return rows


def fields_of(top: str) -> list[Field]:
    """The fields in their order."""
    found, bit = [], 1
    for name, kind, word, about in rows_of(top, LIST, " | ", 4):
        found.append(Field(name, kind, about, bit if kind == "punctuation" else 0, word))
        bit <<= kind == "punctuation"
    return found


def statuses_of(top: str) -> list[Field]:
    """The statuses in their order, each with its text."""
    return [Field(name, "status", text) for name, text in rows_of(top, STATUSES, ": ", 2)]


def quoted(text: str, most: int, between: str) -> str:
    """A text as a literal, in lines of at most `most` columns."""
    return '"' + f" {between}".join(textwrap.wrap(text, most)) + '"'


def in_cases(statuses: list[Field], literal: Callable[[Field], str]) -> str:
    """The cases of a switch of C: what it returns for each status that it knows."""
    lines = []
    for status in statuses[:-1]:
        name = re.sub(r"(?<=[a-z])(?=[A-Z])", "_", status.name).upper()
        said = f"return {literal(status)};"
        space = " " if len(name) + len(said) < 74 else "\n        "
        lines.append(f"    case JADVOLNI_{name}:{space}{said}\n")
    return "".join(lines)


def in_display(statuses: list[Field]) -> str:
    """What Rust's errors say: no fault is none, and a Format has no field that isn't known."""
    lines, value = [], "(_)"
    for status in statuses[1:]:
        value = PLACES.get(status.name, value)
        if status.name != "UnknownField":
            said = quoted(status.about, 72, "\\\n" + " " * 16)
            space = "\n                " if len(said) > 50 else " "
            lines.append(f"            Error::{status.name}{value} =>{space}{said},\n")
    return "".join(lines)


def wrapped(text: str, first: str, more: str) -> str:
    """A text in lines, with what the first and each further line begins with."""
    return textwrap.fill(text, 100, initial_indent=first, subsequent_indent=more,
                         break_on_hyphens=False)


def in_c(fields: list[Field]) -> str:
    """The struct of the header."""
    lines = []
    for field in fields:
        about = field.about
        if field.kind == "flag":
            about = f"Flag: {about[0].lower()}{about[1:]}"
        lines += [wrapped(about + " */", "    /* ", "     * "), f"    uint8_t {field.name};\n"]
    return "\n".join(lines) + "\n"


def in_bytes(fields: list[Field], **given: int) -> str:
    """The bytes of C's struct: those of the standard format, but for these."""
    return ", ".join(str(int(given.get(it.name, it.standard))) for it in fields) + ", 0, {0}"


def each(**texts: str) -> Written:
    """A text for each field of these kinds. A tab breaks it where a line would be too long."""
    def written(fields: list[Field]) -> str:
        made = [texts[it.kind].format(it=it) for it in fields if it.kind in texts]
        return "".join(it.replace("\t", " " if len(it) < 102 else "\n    ") for it in made)

    return written


def alike(text: str) -> Written:
    """A text for each field of every kind."""
    return each(radix=text, punctuation=text, flag=text)


def named(kind: str) -> Written:
    """The names of the fields of a kind, between commas."""
    return lambda fields: ", ".join(f"`{it.name}`" for it in fields if it.kind == kind)


def in_builder(fields: list[Field]) -> str:
    """The setters of Rattle's builder, in the order that compiles to the shortest code."""
    others = [field for field in fields if field.kind != "punctuation"]
    marks = [field for field in fields if field.kind == "punctuation"]
    return each(radix="            .{it.name}(self.{it.name})\n",
                flag="            .{it.name}(flag(self.{it.name}))\n",
                punctuation="            .{it.name}(punctuation(self.{it.name}, "
                            "has_bit(nul, {it.bit})))\n")([*others[9:], *others[8::-1], *marks])


def nested(between: str, radix: str, flag: str, punctuation: str) -> Written:
    """These texts with an operator between them, each next one in brackets."""
    def written(fields: list[Field]) -> str:
        last = each(punctuation=punctuation)(fields)
        made = (each(radix=radix, flag=flag)(fields) + last).splitlines()
        return f"\n    {between} (".join(made) + ")" * (len(made) - 1) + "\n"

    return written


def in_dataclass(punctuation: str) -> Written:
    """The fields of Python, with the standard format's values."""
    return each(radix="    {it.name}: int = {it.standard}\n",
                punctuation=f"    {{it.name}}: {punctuation} = None\n",
                flag="    {it.name}: bool = {it.standard}\n")


def in_setters(kind: str, fields: list[Field]) -> str:
    """The setters of Rust's Format for the fields of a kind."""
    lines = []
    for field in fields:
        if field.kind == kind:
            bit = f" JADVOLNI_NUL_IS_{field.constant}" if field.bit else ""
            lines += [wrapped(field.about, *["        /// "] * 2), f"        {field.name}{bit}"]
    return "\n".join(lines) + "\n"


def in_help(fields: list[Field]) -> str:
    """What the help of Python's Format says of each field."""
    return "".join(wrapped(f"{field.name}: {field.about}", "    ", "        ") + "\n"
                   for field in fields)


def in_types(fields: list[Field]) -> str:
    """The fields of JavaScript's Format, with their types."""
    kinds = {"radix": "number", "punctuation": "Byte | null", "flag": "boolean"}
    return "".join(wrapped(f"{it.about} */", "  /** ", "   * ")
                   + f"\n  {it.name}: {kinds[it.kind]};\n" for it in fields)


def in_bits(fields: list[Field]) -> str:
    """The bits of the second slow reading, each with the number of its field."""
    return "\n".join(f"pub(super) const {it.constant}: u32 = {1 << place:_};\n"
                     for place, it in enumerate(fields) if it.kind != "radix")


def in_counted(fields: list[Field]) -> str:
    """The setters of the program of bench/calls, which is given a byte for each field."""
    values = {"radix": "bytes[{}]", "punctuation": "punctuation(bytes[{}])",
              "flag": "bytes[{}] != 0"}
    return "".join(f"        .{field.name}({values[field.kind].format(place)})\n"
                   for place, field in enumerate(fields))


BYTES = alike("    pub {it.name}: u8,\n")
SAME_NAMES = alike("      {it.name} = a.{it.name};\n")
HEADER, OF_SYS = "include/jadvolni.h", "bindings/rust/jadvolni-sys/src/lib.rs"
COLUMN_ROWS = "crates/jadvolni/proofs/ColumnRows.antt"
SAME = "crates/lexical_util/proofs/Same.antt"
ANSWERS = "crates/answer_lines/"
OF_C, OF_RATTLE = "crates/jadvolni/src/format.rt", "crates/lexical_util/src/format/content.rt"
OF_PYTHON = "bindings/python/src/jadvolni/_format.py"
OF_RUST = "bindings/rust/jadvolni/src/format.rs"
SLOW = "crates/rows/src/tests/formats.rt"
COUNTED = "crates/calls/src/"
FLAGS = "crates/library_tests/src/tests/util/formats.rt"
REGIONS = [
    Region(OF_RATTLE, "    pub(super) mantissa_radix: u8,\n", "    // These stand last",
           each(flag="    pub(super) {it.name}: bool,\n")),
    Region(OF_RATTLE, "ghost view = { λ a. record {\n", "    }", SAME_NAMES),
    Region(OF_RATTLE, "ghost inverse = { λ a. record {\n", "    }", SAME_NAMES),
    Region(OF_RATTLE, "const STANDARD_FIELDS: Fields = Fields {\n", "}",
           each(radix="    {it.name}: {it.standard},\n", punctuation="    {it.name}: None,\n",
                flag="    {it.name}: {it.truth},\n")),
    Region("crates/lexical_util/specs/Format.antt", "pub record Format : Type 0 where\n", "\n--",
           each(radix="  pub {it.name} : ℕ\n", punctuation="  pub {it.name} : Option ℕ\n",
                flag="  pub {it.name} : Bool\n")),
    Region("crates/lexical_util/specs/Format.antt", "standard = record {\n", "}",
           each(radix="  {it.name} = {it.standard};\n", punctuation="  {it.name} = None;\n",
                flag="  {it.name} = {it.truth};\n")),
    Region(SAME, "HaveSameFields format other =\n    ", "\nsame_from_fields",
           nested("×", *["(format.{it.name} ≡ other.{it.name})\n"] * 3)),
    Region(SAME, "format_eq format other =\n    ", "\n-- it says whether",
           nested("&&", "(format.{it.name} == other.{it.name})\n",
                  "beq format.{it.name} other.{it.name}\n",
                  "option_eq ◌==◌ format.{it.name} other.{it.name}\n")),
    Region(HEADER, "typedef struct jadvolni_format {\n", "    /* Bits: ", in_c),
    Region(HEADER, "#define JADVOLNI_FORMAT_STANDARD \\\n    {", "}\n", in_bytes),
    Region(HEADER, "#define JADVOLNI_FORMAT_LITERAL \\\n    {", "}\n", lambda fields: in_bytes(
        fields, digit_separator=ord("_"), integer_internal_digit_separator=1,
        integer_consecutive_digit_separator=1, literal_prefixes=1)),
    Region(OF_C, "pub struct FormatFields {\n", "    pub nul_is_punctuation", BYTES),
    Region(OF_C, " by 25 shifts.\n        NumberFormatBuilder::new()\n",
           "    }\n", in_builder),
    Region("crates/jadvolni/specs/FormatFields.antt", "format_of fields = record {\n", "}\n",
           each(radix="  {it.name} = fields.{it.name};\n",
                punctuation="  {it.name} = punctuation fields.{it.name} "
                            "(has_bit {it.bit} fields.nul_is_punctuation);\n",
                flag="  {it.name} = flag fields.{it.name};\n")),
    Region(OF_SYS, "pub struct jadvolni_format {\n", "    pub nul_is_punctuation", BYTES),
    *(Region(file, begin, "]", lambda fields: str(ROOM - len(fields))) for file, begin in (
        (HEADER, "    uint8_t reserved["), (OF_SYS, "    pub reserved: [u8; "),
        (OF_C, "    pub reserved: [u8; "))),
    Region(COLUMN_ROWS, "fields_of radix reserved = record {\n", "  nul_is_punctuation",
           each(radix="  {it.name} = radix;\n", punctuation="  {it.name} = 0;\n",
                flag="  {it.name} = {it.standard:d};\n")),
    Region(COLUMN_ROWS, "  reserved = ", "reserved ∷ []",
           lambda fields: "0 ∷ " * (ROOM - 1 - len(fields))),
    Region(OF_RUST, "    punctuation! {\n", "    }\n",
           lambda fields: in_setters("punctuation", fields)),
    Region(OF_RUST, "    flags! {\n", "    }\n", lambda fields: in_setters("flag", fields)),
    Region(OF_PYTHON, "one that breaks a rule isn't made.\n\n", "\n    FormatError tells", in_help),
    Region(OF_PYTHON, "    # The fields, in the order of their bytes.\n", "\n    def __post_init__",
           in_dataclass("Punctuation")),
    Region(SLOW, "BYTE_ZERO: u32 = 1;\n\n", "\n// The byte,", in_bits),
    Region(SLOW, "base_suffix(punctuation(bits, SUFFIX, b'h'))\n", "        .build_unchecked()",
           each(flag="        .{it.name}(flag(bits, {it.constant}, {it.truth}))\n")),
    Region(FLAGS, "const FLAGS: usize = ", ";",
           lambda fields: str(sum(it.kind == "flag" for it in fields))),
    Region(FLAGS, "[bool; FLAGS] {\n    [\n", "    ]", each(flag="        format.{it.name}(),\n")),
    Region(FLAGS, "    let each = [\n", "    ]", each(flag="        bare.{it.name}(true),\n")),
    Region(COUNTED + "format.rt", "    NumberFormatBuilder::new()\n", "        .build_unchecked()",
           in_counted),
    Region("bindings/js/format.d.ts", "export interface Fields {\n", "}\n", in_types),
    Region("tools/reference.py", "those of the standard one.\"\"\"\n\n", "\n\nSTANDARD = ",
           in_dataclass("Optional[int]")),
    Region("docs/GRAMMAR.md", "| Field | Setter of `NumberFormatBuilder` |\n|---|---|\n",
           "\n`required_digits` sets both",
           each(radix="| `{it.word}=N` | `{it.name}` |\n",
                punctuation="| `{it.word}=B` | `{it.name}` |\n",
                flag="| `{it.word}` | `{it.name}{it.argument}` |\n")),
    Region(ANSWERS + "src/field.rt", "    Field::MantissaRadix,\n", "    Field::RequiredDigits",
           each(punctuation="    Field::Punctuation(Punctuation::{it.variant}),\n",
                flag="    Field::Flag(Flag::{it.variant}),\n")),
    Region(ANSWERS + "specs/Field.antt", "    field.MantissaRadix\n", "    ∷ field.RequiredDigits",
           each(punctuation="    ∷ field.Punctuation punctuation.{it.variant}\n",
                flag="    ∷ field.Flag flag.{it.variant}\n")),
    Region("crates/lexint/README.md", "`16`, `+2` or `007` |\n| ", " | one byte, or `none` |",
           named("punctuation")),
    Region("crates/lexint/README.md", "one byte, or `none` |\n| ", ", `required_digits` (",
           named("flag")),
]

# What the answers to lines have once for each byte of punctuation, and once for each flag.
OF_KINDS = [
    ("src/field.rt", "pub enum {type} {{\n", "}}\n", "    {it.variant},\n"),
    ("src/field.rt", "{kind}_name self }}\n    {{\n        match self {{\n", "        }}\n",
     "            {it.type}::{it.variant} => \"{it.name}\",\n"),
    ("src/settings.rt", "    match {kind} {{\n", "    }}\n",
     "        {it.type}::{it.variant} => format.{it.name}(value),\n"),
    ("specs/Field.antt", "{kind}_name : {type} → List ℕ\n", "\n--",
     "{it.kind}_name {it.kind}.{it.variant} = codes \"{it.name}\"\n"),
    ("specs/Change.antt", "with_{kind} : {type} → {value} → Format → Format\n", "\n--",
     "with_{it.kind} {it.kind}.{it.variant} value format ="
     "\trecord format {{ {it.name} = value }}\n"),
    ("specs/Given.antt", "{kind}_value : {type} → Format → {value}\n", "\n--",
     "{it.kind}_value {it.kind}.{it.variant} format = format.{it.name}\n"),
]
for kind, value in ("punctuation", "Option ℕ"), ("flag", "Bool"):
    REGIONS += [Region(ANSWERS + file, begin.format(kind=kind, type=kind.title(), value=value),
                       end.format(), each(**{kind: line}))
                for file, begin, end, line in OF_KINDS]

# How many fields there are, in the programs of bench/calls.
COUNTS = [Region(file, begin, end, lambda fields: str(len(fields))) for file, begin, end in (
    (COUNTED + "case.rt", "const FORMAT_SIZE: usize = ", ";"),
    (COUNTED + "format.rt", "format_of(bytes: &[u8; ", "]"),
    ("bench/driver/calls.cpp", "    auto numbers = numbers_in<", ">"))]


SWITCH = "(uint32_t status)\n{\n    switch (status) {\n"
OF_STATUSES = [
    Region(HEADER, f"jadvolni_status_name{SWITCH}", "    default: return \"Unknown",
           lambda them: in_cases(them, lambda it: f'"{it.name}"')),
    Region(HEADER, f"jadvolni_status_text{SWITCH}", "    default: return \"a status",
           lambda them: in_cases(them, lambda it: quoted(it.about, 76, '"\n' + " " * 15 + '"'))),
    Region("bindings/rust/jadvolni/src/error.rs", "&'static str {\n        match self {\n",
           "        }\n", in_display),
]


def fill(top: str, found: dict[str, str], regions: list[Region], listed: list[Field]) -> None:
    """Writes what is listed into regions of files, as `found` has these, or else the disk."""
    for region in regions:
        text = found.get(region.file) or source.read(os.path.join(top, region.file))
        if region.begin not in text:
            raise KeyError(f"{region.file} has no line before a list: {region.begin}")
        before, begin, rest = text.partition(region.begin)
        behind = rest[rest.index(region.end):]
        found[region.file] = before + begin + region.written(listed) + behind


def files(top: str, found: dict[str, str]) -> dict[str, str]:
    """The text of each file that lists the fields or the statuses, as it has to be."""
    found = dict(found)
    fill(top, found, REGIONS + COUNTS, fields_of(top))
    fill(top, found, OF_STATUSES, statuses_of(top))
    return found
