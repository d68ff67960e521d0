"""Random lines for the program: formats, texts that come close to what a parser decides, and bad
lines.

A batch is a list of lines that begins with `r`, so that it can be run without the batches before
it. No line holds a line feed. Which answers are right is no subject here.
"""
from __future__ import annotations

from random import Random
from typing import Dict, List, Optional, Tuple

from reference import BYTE_FIELDS, FLAG_FIELDS, TYPES, IntegerType

NAMES = tuple(TYPES)
SMALL = b"0123456789abcdefghijklmnopqrstuvwxyz"
CAPITALS = b"0123456789ABCDEFGHIJKLMNOPQRSTUVWXYZ"
# Each radix, and most often those at which a reader may change its ways.
RADIXES = tuple(range(2, 37)) + (2, 8, 9) * 2 + (10,) * 12 + (11, 16, 16, 16, 17, 36)
ODD_RADIXES = (0, 1, 37, 100, 255) * 3
SEPARATORS = b"___''., \t\r\0\x7fzZ:/@[`{n"
LETTERS = b"xXxXoObBdDhHuULlfnNzZ$#\0~@`[{"
SUFFIXES = b"hHhHuULlnNdDbBfFzZ%#\0~@`[{"
SEPARATOR_FLAGS = tuple(flag for flag in FLAG_FIELDS if flag.endswith("_digit_separator"))
FLAGS = FLAG_FIELDS + ("required_digits", "no_multi_digit")
LITERAL_FLAGS = ("literal_prefixes", "literal_octal_zero")
OTHER_FLAGS = tuple(flag for flag in FLAGS if flag not in SEPARATOR_FLAGS + LITERAL_FLAGS)
FIELDS = FLAGS + BYTE_FIELDS + ("mantissa_radix", "radix", "")
ALL_BYTES = bytes(range(256))
# the neighbours of digits, letters and ASCII, digits with the high bit set, separators and signs
ODD_BYTES = b"\0\1\t\r +,-./09:@AZ[_`az{\x7f\x80\xb0\xb9\xff"
DOUBTFUL_BYTES = (ODD_BYTES, LETTERS, SUFFIXES, SEPARATORS, ALL_BYTES)
BAD_VALUES = (b"", b"none ", b"None", b"TRUE", b"true ", b"falsee", b"1", b"no", b"hh", b"-0",
              b"256", b"0x10", b"1e1", b"+", b"99999999999999999999", b"\xff\xff")
TO_MUTATE = (b"r", b"c u8 12", b"p i128 0x1F", b"c usize ", b"f base_prefix x",
             b"f literal_prefixes true", b"t 0x1", b"f literal_octal_zero true",
             b"f mantissa_radix 16", b"", b" ", b"c", b"p", b"f", b"t")
LITERALS = {2: ord("b"), 8: ord("o"), 16: ord("x")}
MANY_SIGNS = (b"+-", b"--", b"-+", b"_-", b"+ ")
TAILS = (b" ", b"}", b".5", b"_", b"x", b"g", b"h", b"\r", b"\xff", b"\0", b"0", b"12345678",
         b"123456789")
# the ends of the ranges of lengths that are read in ways of their own
EDGE_LENGTHS = (1, 2, 3, 4, 4, 5, 7, 8, 8, 8, 9, 12, 15, 16, 16, 16, 17, 19, 20, 23, 24, 25, 32, 33,
                38, 39, 40, 41)
TOKEN_PIECES = (b"0x", b"0o", b"0b", b"0", b"_", b"__", b" ", b"\t", b"\r", b"+", b"-", b"x",
                b"abc", b"1_000", b"0xFF", b"0b1_", b"\xc3\xa9", b"9" * 39, b"%d" % (2 ** 128 - 1),
                b"0x" + b"f" * 33, b";", b"a_1")


def as_numeral(value: int, radix: int, digits: bytes) -> bytes:
    """The shortest numeral of a value that is at least 0."""
    text = bytearray()
    while value or not text:
        value, worth = divmod(value, radix)
        text.append(digits[worth])
    return bytes(reversed(text))


def without_line_feed(text: bytes) -> bytes:
    """The text with another byte for each line feed."""
    return text.replace(b"\n", b"\v")


class Lines:
    """Batches of lines from one source of chance, and the fields that the lines so far have set."""

    def __init__(self, chance: Random, tokens: bool) -> None:
        """TOKENS: whether lines of tokens are among them."""
        self.chance, self.choice, self.tokens = chance, chance.choice, tokens
        self.radix = 10
        self.bytes: Dict[str, Optional[int]] = {}
        self.literal = False
        self.octal = False

    def batch(self) -> List[bytes]:
        """A batch: `r`, fields, and then texts with other lines among them."""
        lines = [self.reset()]
        if self.often(20):
            return lines + self.doubtful_fields() + self.parses()
        lines += self.fields()
        for _ in range(self.chance.randint(8, 40)):
            lines += self.among()
        return lines

    def reset(self) -> bytes:
        """The line that sets all fields back."""
        self.radix, self.bytes = 10, dict.fromkeys(BYTE_FIELDS)
        self.literal = self.octal = False
        return b"r"

    def often(self, percent: float) -> bool:
        """Whether something happens that happens that often."""
        return self.chance.random() * 100 < percent

    def among(self) -> List[bytes]:
        """What comes next behind the fields: texts in most cases."""
        which = self.chance.random()
        if which < 0.02:
            return [self.any_field()]
        if which < 0.06:
            return [self.bad_line()]
        if which < 0.08:
            return self.fronts()
        if which < 0.16 and self.tokens:
            return [b"t " + self.source()]
        return self.parses()

    # ---- fields

    def fields(self) -> List[bytes]:
        """Lines that set the fields of a batch: none, the radix, a valid format's, or any."""
        which = self.chance.random()
        lines: List[bytes] = []
        if 0.10 <= which < 0.28:
            lines = [self.set_radix(self.choice(RADIXES))]
        elif 0.28 <= which < 0.40:
            lines = self.literal_fields()
        elif 0.40 <= which < 0.93:
            lines = self.valid_fields()
        elif which >= 0.93:
            lines = [self.any_field() for _ in range(self.chance.randint(1, 6))]
        if self.often(40):
            lines.append(self.set_flag("no_multi_digit", self.often(70)))
        return lines

    def literal_fields(self) -> List[bytes]:
        """Fields of a format whose texts choose the radix."""
        both = ("literal_octal_zero", "literal_prefixes")
        flags = self.choice((both[:1], both[1:], both))
        lines = [self.set_flag(flag, True) for flag in flags]
        if "literal_prefixes" not in flags and self.often(30):
            lines.append(self.set_byte("base_prefix", self.fit_byte(LETTERS)))
        if self.often(50):
            lines += self.separator_fields(b"__'., zZ")
        if self.often(30):
            lines.append(self.set_byte("base_suffix", self.choice(b"uUlLnNhHzZ%")))
        return lines + self.flag_fields()

    def valid_fields(self) -> List[bytes]:
        """Fields of a format that is valid in most cases."""
        lines = [self.set_radix(self.choice(RADIXES))] if self.often(50) else []
        if self.often(65):
            lines += self.separator_fields(SEPARATORS)
        if self.often(50):
            lines.append(self.set_byte("base_prefix", self.fit_byte(LETTERS)))
        if self.often(50):
            lines.append(self.set_byte("base_suffix", self.fit_byte(SUFFIXES)))
        return lines + self.flag_fields()

    def doubtful_fields(self) -> List[bytes]:
        """Fields that may make a format invalid, by one rule or by several."""
        lines = [self.set_flag(flag, True) for flag in LITERAL_FLAGS if self.often(30)]
        if self.often(40):
            lines.append(self.set_radix(self.choice(RADIXES + ODD_RADIXES)))
        for field in BYTE_FIELDS:
            if self.often(45):
                lines.append(self.set_byte(field, self.doubtful_byte()))
        self.chance.shuffle(lines)
        return lines

    def separator_fields(self, among: bytes) -> List[bytes]:
        """A separator, and where it may stand."""
        lines = [self.set_byte("digit_separator", self.fit_byte(among))]
        return lines + [self.set_flag(flag, True) for flag in SEPARATOR_FLAGS if self.often(55)]

    def flag_fields(self) -> List[bytes]:
        """Some of the other flags."""
        lines = [self.set_flag(flag, True) for flag in OTHER_FLAGS if self.often(12)]
        if self.often(35):
            lines.append(self.set_flag("required_digits", False))
        if self.often(30):
            lines.append(self.set_flag("no_integer_leading_zeros", True))
        return lines

    def doubtful_byte(self) -> int:
        """A byte that may not fit its field."""
        return self.choice(self.choice(DOUBTFUL_BYTES))

    def fit_byte(self, among: bytes) -> int:
        """A byte that is no digit, where a few tries find one, and any byte at times."""
        if self.often(1):
            return self.chance.randrange(256)
        for _ in range(8):
            byte = self.choice(among)
            digits = SMALL[:self.radix] + CAPITALS[:self.radix]
            if byte not in digits and byte not in self.bytes.values():
                return byte
        return self.choice(b"_~%$")

    def set_radix(self, radix: int) -> bytes:
        """A line that sets the radix."""
        self.radix = radix
        return b"f mantissa_radix %s%d" % (self.choice((b"", b"", b"", b"+", b"0", b"000")), radix)

    def set_byte(self, field: str, byte: Optional[int]) -> bytes:
        """A line that sets a separator, a prefix or a suffix; `_` stands for a line feed."""
        byte = ord("_") if byte == 10 else byte
        self.bytes[field] = byte
        return b"f %s %s" % (field.encode(), b"none" if byte is None else bytes([byte]))

    def set_flag(self, flag: str, value: bool) -> bytes:
        """A line that sets a flag."""
        if flag == "literal_prefixes":
            self.literal = value
        if flag == "literal_octal_zero":
            self.octal = value
        return b"f %s %s" % (flag.encode(), b"true" if value else b"false")

    def any_field(self) -> bytes:
        """A line that sets any field to any value, bad ones among them."""
        which = self.chance.random()
        if which < 0.15:
            return b"f %s %s" % (self.choice(FIELDS).encode(), self.choice(BAD_VALUES))
        if which < 0.20:
            radix = self.mutated(b"%03d" % self.chance.randrange(300))
            return without_line_feed(b"f mantissa_radix " + radix)
        if which < 0.35:
            return self.set_radix(self.choice(RADIXES + ODD_RADIXES))
        if which < 0.65:
            byte = self.doubtful_byte()
            return self.set_byte(self.choice(BYTE_FIELDS), None if self.often(20) else byte)
        return self.set_flag(self.choice(FLAGS), self.often(60))

    # ---- lines

    def parses(self) -> List[bytes]:
        """A line or two that parse a text, at times under both settings of no_multi_digit."""
        name = self.choice(NAMES)
        text = self.text(TYPES[name])
        parsers = self.choice((b"c", b"c", b"p", b"p", b"cp"))
        lines = [b"%c %s %s" % (parser, name, text) for parser in parsers]
        if self.often(4):
            lines = [b"f no_multi_digit true"] + lines + [b"f no_multi_digit false"] + lines
        return lines

    def fronts(self) -> List[bytes]:
        """The beginnings of a text, from the shortest on."""
        name = self.choice(NAMES)
        text = self.text(TYPES[name])[:24]
        parser = self.choice(b"cp")
        return [b"%c %s %s" % (parser, name, text[:length]) for length in range(len(text) + 1)]

    def bad_line(self) -> bytes:
        """A line that no longer is what it was; it may be a good one still."""
        line = self.any_field() if self.often(30) else self.choice(TO_MUTATE)
        for _ in range(self.choice((0, 1, 1, 1, 2, 3))):
            line = self.mutated(line)
        return without_line_feed(line)

    # ---- texts

    def text(self, kind: IntegerType) -> bytes:
        """A text, most often with a sign, a prefix, a numeral and a suffix that mean something."""
        which = self.chance.random()
        if which < 0.03:
            return self.noise()
        prefix, radix = self.prefix()
        text = self.sign(kind) + prefix + self.separated(self.numeral(kind, radix)) + self.tail()
        if which < 0.20:
            text = self.mutated(text)
        return without_line_feed(text)

    def noise(self) -> bytes:
        """Bytes of a small alphabet, or any bytes."""
        alphabet = self.choice((ALL_BYTES, ODD_BYTES, b"01_+-xhZ", self.known_bytes()))
        return without_line_feed(bytes(self.chance.choices(alphabet, k=self.chance.randint(0, 12))))

    def known_bytes(self) -> bytes:
        """The bytes that mean something under the fields."""
        set_bytes = bytes(byte for byte in self.bytes.values() if byte is not None)
        return set_bytes + b"019+-" + SMALL[self.radix - 1:self.radix]

    def sign(self, kind: IntegerType) -> bytes:
        """A sign, none, or several."""
        if self.often(3):
            return self.choice(MANY_SIGNS)
        if self.often(40 if kind.signed else 5):
            return b"-"
        return b"+" if self.often(20) else b""

    def prefix(self) -> Tuple[bytes, int]:
        """A prefix, or none, and the radix behind it."""
        if self.literal and self.often(75):
            radix = self.choice((2, 8, 16))
            return b"0" + self.near(LITERALS[radix]), radix
        if self.octal and self.often(60):
            separator = self.bytes["digit_separator"]
            return b"0" + (b"" if separator is None or self.often(70) else bytes([separator])), 8
        byte = self.bytes["base_prefix"]
        if byte is None or self.often(45):
            return (b"0x" if self.often(2) else b""), self.radix
        return b"0" + self.near(byte), self.radix

    def near(self, byte: int) -> bytes:
        """The byte, at times in its other case if it is a letter, and at times one beside it."""
        if self.often(72):
            return bytes([byte])
        # of bytes that are no letters, the one that differs as the cases of letters do is another
        if self.often(75):
            return bytes([byte ^ 0x20])
        return bytes([(byte + self.choice((1, -1))) % 256])

    def tail(self) -> bytes:
        """What stands behind the numeral: nothing, a suffix, or other bytes."""
        byte = self.bytes["base_suffix"]
        suffix = b"" if byte is None or self.often(40) else self.near(byte)
        if self.often(75):
            return suffix
        return suffix + (suffix if self.often(15) else self.choice(TAILS))

    def numeral(self, kind: IntegerType, radix: int) -> bytes:
        """Digits, and at times a byte among them that is none."""
        makers = (self.near_end, self.near_end, self.any_digits, self.any_digits, self.words,
                  self.few_digits)
        radix = max(2, min(radix, 36))  # the format's may be invalid
        text = self.choice(makers)(kind, radix)
        if self.often(12):
            text = b"0" * self.choice((1, 1, 2, 3, 4, 7, 8, 9, 20, 50)) + text
        if self.often(0.5):
            text = self.long_text(text, radix)
        return text

    def digits(self, length: int, radix: int) -> bytes:
        """As many digits, in either case."""
        return bytes(self.chance.choices(self.choice((SMALL, CAPITALS))[:radix], k=length))

    def near_end(self, kind: IntegerType, radix: int) -> bytes:
        """A value at an end of the type or of a type beside it, or a digit more than that."""
        bits = kind.bits if self.often(80) else self.choice((8, 16, 32, 64, 128))
        value = (1 << (bits - kind.signed)) + self.choice((-2, -1, -1, 0, 0, 1, 2))
        if self.often(15):
            value = value // radix
        if self.often(10):
            value += self.chance.randrange(value)
        text = as_numeral(value, radix, self.choice((SMALL, CAPITALS)))
        return text + self.digits(self.choice((0, 0, 0, 0, 0, 1, 2)), radix)

    def any_digits(self, kind: IntegerType, radix: int) -> bytes:
        """Up to a few digits more than the type has room for."""
        return self.digits(self.chance.randint(0, kind.bits // (radix.bit_length() - 1) + 3), radix)

    def few_digits(self, _: IntegerType, radix: int) -> bytes:
        """None to three digits."""
        return self.digits(self.chance.randint(0, 3), radix)

    def words(self, _: IntegerType, radix: int) -> bytes:
        """As many digits as are read by words, or one more or less, and at times one bad byte."""
        text = bytearray(self.digits(self.choice(EDGE_LENGTHS), radix))
        if self.often(60):
            place = self.chance.randrange(len(text))
            others = (ord("/"), ord("0") + radix, ord(":"), text[place] ^ 0x80, text[place] ^ 0x10)
            text[place] = self.choice(bytes(others) + bytes([self.chance.randrange(256)]))
        return bytes(text)

    def long_text(self, text: bytes, radix: int) -> bytes:
        """A long text."""
        length = self.choice((100, 255, 256, 257, 1000, 3000))
        again = text * (1 + length // (len(text) + 1))
        return self.choice((b"0" * length + text, text + self.digits(length, radix), again))

    def separated(self, text: bytes) -> bytes:
        """The text, at times with runs of separators in it."""
        byte = self.bytes["digit_separator"]
        if byte is None or self.often(40):
            return text
        for _ in range(self.choice((1, 1, 1, 2, 2, 3, 5))):
            middle = self.chance.randint(0, len(text))
            place = self.choice((0, len(text), middle, middle))
            run = bytes([byte]) * self.choice((1, 1, 1, 1, 2, 2, 3, 9))
            text = text[:place] + run + text[place:]
        return text

    def mutated(self, text: bytes) -> bytes:
        """The text with one small change."""
        place = self.chance.randint(0, len(text))
        byte = bytes([self.choice(self.choice((ODD_BYTES, self.known_bytes(), ALL_BYTES)))])
        flip = 1 << self.chance.randrange(8)
        front, here, behind = text[:place], text[place:place + 1], text[place + 1:]
        return self.choice((
            front + byte + here + behind, front + byte + behind, front + behind, front,
            here + behind, front + here + here + behind, front + here.swapcase() + behind,
            front + behind[:1] + here + behind[1:],
            text + front, front + bytes(old ^ flip for old in here) + behind,
        ))

    def source(self) -> bytes:
        """A source of tokens."""
        pieces = [self.token_piece() for _ in range(self.chance.randint(0, 9))]
        text = self.choice((b"", b"", b" ")).join(pieces)
        return without_line_feed(self.mutated(text) if self.often(20) else text)

    def token_piece(self) -> bytes:
        """A piece of a source."""
        if self.often(60):
            return self.choice(TOKEN_PIECES)
        return self.noise() if self.often(10) else self.text(TYPES[b"u128"])
