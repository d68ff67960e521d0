"""Tables to ask about: random ones, and all short texts under many settings."""
from __future__ import annotations

import itertools
import random
from dataclasses import replace
from typing import Iterator, NamedTuple, Optional, Sequence

from reading import TEXTS, Dialect, Target
from reference import JSON, STANDARD, TYPES, Format
from slow_fixed import FIXED, Fixed, number_text, spoilt

# In the order of their numbers in answers.c.
KINDS = (b"u8", b"u16", b"u32", b"u64", b"i8", b"i16", b"i32", b"i64")
FORMS = (STANDARD, STANDARD, STANDARD, JSON, Format(no_integer_leading_zeros=True),
         Format(no_positive_mantissa_sign=True), Format(required_mantissa_digits=False),
         Format(mantissa_radix=16, base_prefix=ord("x"), base_suffix=ord("h")),
         Format(digit_separator=ord("_"), integer_internal_digit_separator=True),
         Format(required_mantissa_digits=False, required_mantissa_sign=True),
         Format(digit_separator=ord(","), required_mantissa_digits=False,
                integer_leading_digit_separator=True, integer_trailing_digit_separator=True))
TARGETS = [Target(kind, form, may_miss)
           for kind in KINDS for form in FORMS for may_miss in (False, True)]
EUROS = replace(STANDARD, digit_separator=ord("."), integer_internal_digit_separator=True)
FIXED_FORMS = [*FIXED.values(), Fixed(EUROS, ord(",")), Fixed(EUROS, ord(","), takes_fewer=False),
               Fixed(point=ord("x"), places=1), Fixed(point=0xff, places=18),
               # Around the most places read in place: eleven, or six where fewer may stand.
               *(Fixed(places=places, takes_fewer=False) for places in (6, 7, 8, 9, 11, 12)),
               *(Fixed(places=places) for places in (6, 7, 9)),
               Fixed(JSON), Fixed(JSON, places=8, takes_fewer=False)]
# Those without places are integers, and need a radix.
FIXED_TARGETS = [Target(kind, may_miss=may_miss, fixed=fixed) for kind in KINDS
                 for fixed in FIXED_FORMS if fixed.places > 0 for may_miss in (False, True)]
TEXT_TARGETS = [Target(TEXTS, may_miss=may_miss) for may_miss in (False, True)]


class Question(NamedTuple):
    """A table or a part of one, and how it is read."""

    text: bytes
    is_last: bool
    dialect: Dialect
    targets: Sequence[Optional[Target]]
    # How many rows are asked for, and how many each array has room for.
    rows: int
    room: int
    # Where the text is cut, to read it in two parts.
    cuts: range
    # For how many bad rows there is room, if these are skipped.
    bad_room: Optional[int] = None


# ---- random tables

SEPARATORS = b",,,,,,;\t 1-x"
ODD_SEPARATORS = b"\n\r\"_+."
MARKS = (b"", b"", b"NA", b"-", b"0", b"17", b" ", b"\"", b",")
ALPHABET = b"0123456789,,\"\"\"\n\n\r\r  \t--+x_NA;.f\0\xff"
CELLS = (b"", b"0", b"7", b"12", b"-1", b"+1", b"-0", b"007", b"1_0", b"0xff", b"xf", b"NA", b"x",
         b"127", b"128", b"-128", b"-129", b"255", b"256", b"32767", b"-32769", b"65535", b"65536",
         b"4294967295", b"2147483648", b"-2147483648", b"999999999999", b"1234567890123",
         b"18446744073709551615", b"18446744073709551616", b"-9223372036854775808",
         b"9223372036854775808", b"1,000", b"00000000000000000000000000001", b"9" * 40)
WORDS = b"abcde fg01\t\"\",;\n\r\0\xff"
MOST_BYTES = 1000
WIDTHS = (0, 1, 1, 1, 2, 2, 3, 3, 4, 5, 8, 13, 20)
HUGE_WIDTHS = (1000, 2 ** 63, 2 ** 64 - 1)


def with_widths(chance: random.Random, dialect: Dialect) -> Dialect:
    """The same with widths in the place of separators."""
    columns = chance.choice((1, 2, 2, 3, 4))
    widths = [chance.choice(HUGE_WIDTHS if chance.random() < 0.01 else WIDTHS)
              for _ in range(columns)]
    return dialect._replace(columns=columns, widths=widths, is_records=chance.random() < 0.5)


def random_dialect(chance: random.Random) -> Dialect:
    """A dialect with any options."""
    has_returns, has_quotes, allows_blanks, skips = (chance.random() < 0.5 for _ in range(4))
    odd = chance.random() < 0.03
    separator = chance.choice(ODD_SEPARATORS if odd else SEPARATORS)
    columns = chance.choice((0, 1, 1, 2, 2, 2, 3, 3, 4, 5))
    dialect = Dialect(separator, columns, has_returns, has_quotes, allows_blanks, skips,
                      chance.choice(MARKS), allows_returns=chance.random() < 0.3)
    return with_widths(chance, dialect) if chance.random() < 0.4 else dialect


def fitted(cell: bytes, width: int, dialect: Dialect) -> bytes:
    """A cell as wide as its column, in front of blanks or behind zeros."""
    if width >= MOST_BYTES:
        return cell
    padded = cell.ljust(width) if dialect.allows_blanks else cell.zfill(width)
    return padded[:width]


def random_cell(chance: random.Random, dialect: Dialect, is_plain: bool, column: int,
                target: Optional[Target]) -> bytes:
    """A cell, plain or as it comes."""
    kind = chance.random()
    if target is not None and target.fixed is not None and chance.random() < 0.8:
        cell = number_text(chance, target.fixed, TYPES[target.type])
        cell = cell if is_plain else spoilt(chance, cell)
    elif target is not None and target.keeps_texts() and chance.random() < 0.6:
        cell = bytes(chance.choices(WORDS, k=chance.randint(0, 12)))
    elif is_plain or kind < 0.6:
        digits = chance.choice((1, 1, 1, 2, 2, 3, 5, 9, 12, 13, 15, 18, 19))
        cell = b"%d" % int(chance.random() * 10 ** digits)
        cell = cell.zfill(chance.randint(1, 20)) if chance.random() < 0.1 else cell
        cell = b"-" + cell if chance.random() < 0.15 else cell
    elif kind < 0.97:
        cell = chance.choice(CELLS)
    else:  # as long as a few words of the machine
        cell = chance.choice((b"x", b"1", b" ", b"\xff")) * chance.choice((90, 90, 200))
        cell = cell[:chance.randint(1, len(cell))]
    if dialect.missing and chance.random() < 0.1:
        cell = dialect.missing
    if dialect.allows_blanks and chance.random() < 0.2:
        blanks = (b" ", b"\t", b"  ", b"")
        cell = chance.choice(blanks) + cell + chance.choice(blanks)
    is_quoted = dialect.has_quotes and chance.random() < (0.1 if is_plain else 0.4)
    if is_quoted:
        cell = cell.replace(b'"', b'""')
    if dialect.widths and column < dialect.columns:
        cell = fitted(cell, max(dialect.widths[column] - 2 * is_quoted, 0), dialect)
    return b'"' + cell + b'"' if is_quoted else cell


def random_row(chance: random.Random, dialect: Dialect, is_plain: bool,
               targets: Sequence[Optional[Target]]) -> bytes:
    """A row with its end."""
    count = dialect.columns
    if not is_plain and chance.random() < 0.1:
        count = max(count + chance.choice((-1, 1)), 0)
    cells = [random_cell(chance, dialect, is_plain, column, target)
             for column, target in zip(range(count), [*targets, None])]
    has_other_end = chance.random() < (0.5 if dialect.allows_returns else 0 if is_plain else 0.03)
    end = b"\r\n" if dialect.has_returns != has_other_end else b"\n"
    between = b"" if dialect.widths else bytes([dialect.separator])
    return between.join(cells) + (b"" if dialect.is_records else end)


def mutated(chance: random.Random, text: bytes) -> bytes:
    """The text with a byte changed, added or taken away."""
    place = chance.randint(0, len(text))
    more = bytes([chance.choice(ALPHABET)]) if chance.random() < 0.7 else b""
    return text[:place] + more + text[place + chance.randint(0, 1):]


def random_text(chance: random.Random, dialect: Dialect,
                targets: Sequence[Optional[Target]]) -> bytes:
    """A text of rows, most of which are well, or of any bytes."""
    if chance.random() < 0.25:
        return bytes(chance.choices(ALPHABET, k=chance.randint(0, 24)))
    is_plain = chance.random() < 0.5
    # Rows of widths are read by the codes of their columns in a longer text.
    is_long = chance.random() < (0.3 if dialect.widths else 0.03)
    count = 40 if is_long else chance.choice((0, 1, 1, 2, 2, 3, 4, 5, 8, 12))
    rows = [random_row(chance, dialect, is_plain, targets) for _ in range(count)]
    if dialect.skips_empty_rows or chance.random() < 0.05:
        rows.insert(chance.randint(0, len(rows)), chance.choice((b"\n", b"\r\n", b"\n\n")))
    text = b"".join(rows)
    if chance.random() < 0.3:
        text = text[:-1]
    for _ in range(chance.choice((0, 0, 1, 2))):
        text = mutated(chance, text)
    return text


def random_target(chance: random.Random) -> Optional[Target]:
    """What is read of a column: integers mostly."""
    targets = chance.choice((None, TARGETS, TARGETS, FIXED_TARGETS, FIXED_TARGETS, TEXT_TARGETS))
    return chance.choice(targets) if targets is not None else None


def random_questions(chance: random.Random) -> Iterator[Question]:
    """Questions without end."""
    while True:
        dialect = random_dialect(chance)
        targets = [random_target(chance) for _ in range(dialect.columns)]
        text = random_text(chance, dialect, targets)[:MOST_BYTES]
        is_last = chance.random() < 0.7
        text = text if is_last else text[:chance.randint(0, len(text))]
        rows = chance.choice((0, 1, 2, 3, 4, 9, 12, 50))
        cut = chance.randint(0, len(text))
        room = rows + chance.choice((0, 1, 9))
        asked = Question(text, is_last, dialect, targets, rows, room, range(cut, cut + 1))
        yield asked
        yield asked._replace(bad_room=chance.choice((0, 1, 2, 9)))


# ---- short texts

SHORT_ALPHABET = b'1,"\n\r x'
BYTE, SMALL = Target(b"u8", STANDARD, True), Target(b"i8", JSON, False)
# In the alphabet x may be a point.
TENTHS = Target(b"i8", fixed=Fixed(point=ord("x"), places=1), may_miss=True)
EXACT = Target(b"u8", fixed=Fixed(point=ord("x"), places=2, takes_fewer=False))
WORD, WORD_OR_NONE = TEXT_TARGETS
FLAGS = [Dialect(ord(","), 2, returns, quotes, blanks, skips)
         for returns, quotes, blanks, skips in itertools.product((False, True), repeat=4)]
ALL_FLAGS = FLAGS[-1]._replace(missing=b" ")


def setting(dialect: Dialect, *targets: Optional[Target], is_last: bool = True, rows: int = 6,
            room: int = 6) -> Question:
    """A question whose text is still to come."""
    return Question(b"", is_last, dialect, targets, rows, room, range(0))


def settings_by_separators() -> Iterator[Question]:
    """How the short texts are read, with separators between cells."""
    for dialect in FLAGS:
        yield setting(dialect, BYTE, SMALL, room=7)
        yield setting(dialect._replace(columns=1, missing=b"x"), BYTE)
        yield setting(dialect, WORD_OR_NONE, TENTHS, room=7)
        yield setting(dialect._replace(columns=1, missing=b"1"), WORD_OR_NONE)
        yield setting(dialect._replace(columns=1, allows_returns=True), EXACT)
    yield setting(Dialect(ord("\n"), 1, allows_blanks=True), BYTE)
    yield setting(Dialect(ord("\n"), 2, allows_blanks=True), BYTE, SMALL)
    yield setting(Dialect(ord("\r"), 2, has_returns=True, allows_blanks=True), BYTE, SMALL)
    yield setting(Dialect(ord("\r"), 2, allows_returns=True, allows_blanks=True), BYTE, SMALL)
    for flags in (FLAGS[0], FLAGS[1], FLAGS[-1]):
        yield setting(flags._replace(allows_returns=True), BYTE, SMALL)
        yield setting(flags._replace(allows_returns=True), TENTHS, WORD)
    yield setting(Dialect(ord('"'), 2, has_returns=True, allows_blanks=True), BYTE, SMALL)
    yield setting(Dialect(ord(" "), 2, has_quotes=True, allows_blanks=True), SMALL, BYTE)
    yield setting(Dialect(ord('"'), 2, has_quotes=True, allows_blanks=True), WORD, TENTHS)
    yield setting(ALL_FLAGS, BYTE, None, is_last=False)
    yield setting(ALL_FLAGS, WORD_OR_NONE, TENTHS, is_last=False)
    yield setting(ALL_FLAGS._replace(columns=0), rows=2, room=2)
    yield setting(ALL_FLAGS._replace(columns=3), None, BYTE, None, rows=1, room=3)


def settings_by_widths() -> Iterator[Question]:
    """How the short texts are read, where cells have widths."""
    for dialect in FLAGS:
        yield setting(dialect._replace(widths=(1, 2)), BYTE, SMALL)
        yield setting(dialect._replace(widths=(2, 1), is_records=True), BYTE, SMALL)
        yield setting(dialect._replace(widths=(1, 2)), WORD_OR_NONE, TENTHS)
        yield setting(dialect._replace(widths=(3, 1), is_records=True), TENTHS, WORD)
    lines, records = ALL_FLAGS, ALL_FLAGS._replace(is_records=True)
    yield setting(lines._replace(widths=(2, 0)), SMALL, BYTE)
    yield setting(lines._replace(widths=(2, 0)), TENTHS, WORD_OR_NONE)
    yield setting(lines._replace(widths=(3, 2 ** 64 - 1)), BYTE, SMALL)
    yield setting(lines._replace(widths=(1, 1)), None, SMALL, is_last=False)
    yield setting(records._replace(widths=(0, 1)), BYTE, SMALL)
    yield setting(records._replace(columns=1, widths=(0,)), BYTE)
    yield setting(records._replace(widths=(1, 2 ** 64 - 1)), SMALL, BYTE)
    yield setting(records._replace(widths=(1, 1)), None, SMALL, is_last=False)
    yield setting(records._replace(columns=1, widths=(3,)), None, rows=1, room=3)


def short_questions(longest: int) -> Iterator[Question]:
    """All texts of the alphabet up to a length under each setting, cut at each place."""
    lengths = range(longest + 1)
    texts = [bytes(text) for length in lengths
             for text in itertools.product(SHORT_ALPHABET, repeat=length)]
    for asked in itertools.chain(settings_by_separators(), settings_by_widths()):
        for text in texts:
            cuts = range(len(text) + 1)
            yield asked._replace(text=text, cuts=cuts)
            yield asked._replace(text=text, cuts=cuts, bad_room=2)
