"""Tests of messages: each fault says what the one list of texts says of its kind."""

import pathlib
import unittest

from jadvolni import (Fixed, Format, FormatError, ParseError, parse, parse_column, parse_table,
                      parse_typed_literal)

LIST = pathlib.Path(__file__).resolve().parents[2] / "errors.txt"


class Reserved:
    """A format with a field of a later version."""

    _fields = b"\x0a" + bytes(30) + b"\x01"


# How each kind of fault comes about: of a text its place, the text, and the format that it has.
OF_TEXTS = {
    "Overflow": (2, "256", {}),
    "Underflow": (3, "-129", {}),
    "InvalidDigit": (1, "1x", {}),
    "Empty": (1, "+", {}),
    "MissingSign": (0, "1", {"required_mantissa_sign": True}),
    "InvalidPositiveSign": (0, "+1", {"no_positive_mantissa_sign": True}),
    "InvalidLeadingZeros": (1, "-01", {"no_integer_leading_zeros": True}),
}
OF_FORMATS = {
    "InvalidMantissaRadix": {"mantissa_radix": 37},
    "InvalidDigitSeparator": {"digit_separator": "7"},
    "InvalidBasePrefix": {"base_prefix": "+"},
    "InvalidBaseSuffix": {"base_suffix": b"\x80"},
    "InvalidPunctuation": {"base_prefix": "x", "base_suffix": "X"},
    "InvalidLiteralPrefixes": {"mantissa_radix": 8, "literal_octal_zero": True},
}
# The kinds that tables alone have, each with a text of two columns. No call has an invalid table.
OF_TABLES = {
    "TooFewCells": "1\r\n",
    "TooManyCells": "1,2,3\r\n",
    "MissingReturn": "1,2\n",
    "MisplacedQuote": '1,"\r\n',
    "InvalidTable": None,
}
# The kinds of fixed-point numbers.
OF_FIXED = {
    "InvalidFixedRadix": {"format": Format(mantissa_radix=16)},
    "InvalidFixedAffix": {"format": Format(base_suffix="d")},
    "InvalidPoint": {"point": "7"},
    "InvalidPlaces": {"places": 39},
}
# The kinds of literals with types. No call has an invalid table of suffixes.
OF_TYPED_LITERALS = {"UnknownSuffix", "InvalidSuffixTable"}


def listed():
    """The text of each kind."""
    lines = LIST.read_text(encoding="utf-8").splitlines()
    return dict(line.split(": ", 1) for line in lines if line and not line.startswith("#"))


class Messages(unittest.TestCase):
    """The messages of the exceptions."""

    def test_each_kind_is_tried(self):
        tried = {*OF_TEXTS, *OF_FORMATS, *OF_TABLES, *OF_FIXED, *OF_TYPED_LITERALS, "UnknownField"}
        self.assertEqual(tried, {*listed()} - {"Ok", "Unknown"})

    def test_faults_of_texts(self):
        for kind, (place, text, format) in OF_TEXTS.items():
            with self.subTest(kind=kind):
                with self.assertRaises(ParseError) as caught:
                    parse(text, "i8", Format(**format))
                message = f"{listed()[kind]} at byte {place}: {text.encode()!r}"
                self.assertEqual((caught.exception.kind, str(caught.exception)), (kind, message))
                with self.assertRaises(ParseError) as caught:
                    parse_column(f"-0,{text}", "i8", ",", Format(**format))
                message = f"{listed()[kind]} at byte {place + 3}, in field 2: {text.encode()!r}"
                self.assertEqual((caught.exception.kind, str(caught.exception)), (kind, message))

    def test_faults_of_formats(self):
        for kind, given in OF_FORMATS.items():
            with self.subTest(kind=kind), self.assertRaises(FormatError) as caught:
                Format(**given)
            message = listed()[kind]
            self.assertEqual((caught.exception.kind, str(caught.exception)), (kind, message))

    def test_faults_of_tables(self):
        for kind, text in OF_TABLES.items():
            if text is not None:
                with self.subTest(kind=kind), self.assertRaises(ParseError) as caught:
                    parse_table(text, {"a": "i8", "b": "i8"}, has_returns=True, has_quotes=True)
                self.assertEqual(caught.exception.kind, kind)
                self.assertIn(f": {listed()[kind]}", str(caught.exception))

    def test_faults_of_fixed_point_numbers(self):
        for kind, given in OF_FIXED.items():
            with self.subTest(kind=kind), self.assertRaises(FormatError) as caught:
                Fixed(**{"places": 2, **given})
            message = listed()[kind]
            self.assertEqual((caught.exception.kind, str(caught.exception)), (kind, message))

    def test_an_unknown_suffix(self):
        with self.assertRaises(ParseError) as caught:
            parse_typed_literal("1u", {"": "u8"})
        self.assertEqual(str(caught.exception), f"{listed()['UnknownSuffix']} at byte 1: b'1u'")

    def test_a_field_of_a_later_version(self):
        with self.assertRaises(FormatError) as caught:
            parse_column("1", format=Reserved())
        self.assertEqual(str(caught.exception), listed()["UnknownField"])


if __name__ == "__main__":
    unittest.main()
