"""Tests of literals whose suffix names a type: worked by hand, and hostile tables."""

import gc
import sys
import unittest

from jadvolni import Format, FormatError, ParseError, formats, parse_typed_literal

RUST = {"": "i32", "u8": "u8", "i8": "i8", "i64": "i64", "u128": "u128"}
C = {"": "i32", "u": "u32", "U": "u32", "UL": "u64", "ull": "u64"}


class TypedLiterals(unittest.TestCase):
    """parse_typed_literal."""

    def test_right_literals(self):
        for text, suffixes, format, found in (
            ("1_000i64;", RUST, formats.RUST, (1000, "i64", "i64", 8)),
            (b"0xFFu8", RUST, formats.RUST, (255, "u8", "u8", 6)),
            ("2147483647", RUST, formats.RUST, (2**31 - 1, "", "i32", 10)),
            ("7 u8", RUST, formats.RUST, (7, "", "i32", 1)),
            (f"{2**128 - 1}u128", RUST, formats.RUST, (2**128 - 1, "u128", "u128", 43)),
            ("10UL)", C, formats.C, (10, "UL", "u64", 4)),
            ("65535U", C, formats.C, (65535, "U", "u32", 6)),
            ("017ull", C, formats.C, (15, "ull", "u64", 6)),
            ("12", {"": "u8"}, None, (12, "", "u8", 2)),
            ("12é", {"": "u8", "é": "u16"}, None, (12, "", "u8", 2)),
        ):
            with self.subTest(text=text):
                self.assertEqual(parse_typed_literal(text, suffixes, format), found)

    def test_faults(self):
        for text, kind, place in (
            ("300u8", "Overflow", 2), ("128i8", "Overflow", 2), ("2147483648", "Overflow", 9),
            ("0b102", "InvalidDigit", 4), ("12abc", "UnknownSuffix", 2),
            ("1e5", "UnknownSuffix", 1),
            ("1u", "UnknownSuffix", 1), ("1u88", "UnknownSuffix", 1), ("1U8", "UnknownSuffix", 1),
            ("-128i8", "Empty", 0), ("", "Empty", 0), ("u8", "Empty", 0), ("0x", "Empty", 2),
            ("9" * 40, "Overflow", 9), ("9" * 40 + "u128", "Overflow", 38),
        ):
            with self.subTest(text=text), self.assertRaises(ParseError) as told:
                parse_typed_literal(text, RUST, formats.RUST)
            self.assertEqual((told.exception.kind, told.exception.place), (kind, place))
        with self.assertRaisesRegex(ParseError, "^unknown suffix at byte 2: b'12abc'$"):
            parse_typed_literal("12abc", RUST)
        for table in ({}, {"u8": "u8"}):
            with self.assertRaisesRegex(ParseError, "^unknown suffix at byte 2: b'12'$"):
                parse_typed_literal("12", table)

    def test_types_come_back_as_they_were_given(self):
        class u8:  # (as numpy.uint8 is one of its name)
            pass

        _, _, kind, _ = parse_typed_literal("7u", {"u": u8})
        self.assertIs(kind, u8)
        with self.assertRaises(ParseError) as told:
            parse_typed_literal("256u", {"u": u8})
        self.assertEqual((told.exception.kind, told.exception.place), ("Overflow", 2))

    def test_wrong_arguments(self):
        for given, kind, message in (
            ({"suffixes": None}, TypeError, "^suffixes has to be a dict, and not NoneType"),
            ({"suffixes": ["u8"]}, TypeError, "^suffixes has to be a dict, and not list"),
            ({"suffixes": {b"u": "u8"}}, TypeError, "^each suffix has to be a str, and not bytes"),
            ({"suffixes": {"u": "u9"}}, ValueError, "^type has to be u8, u16, u32"),
            ({"suffixes": {"u": 8}}, TypeError, "^type has to be a str such as 'u64'"),
            ({"suffixes": {"\ud800": "u8"}}, UnicodeEncodeError, ""),
            ({"text": 5}, TypeError, "^text has to be a str or contiguous bytes"),
            ({"format": "C"}, TypeError, "^format has to be a jadvolni.Format or None"),
            ({"more": 1}, TypeError, r"^parse_typed_literal\(\) has no argument 'more'"),
        ):
            with self.subTest(given=given), self.assertRaisesRegex(kind, message):
                parse_typed_literal(**{"text": "1u", "suffixes": RUST, **given})
        self.assertRaises(TypeError, parse_typed_literal, "1u")
        self.assertRaises(TypeError, parse_typed_literal, suffixes=RUST)

    def test_a_format_that_is_none(self):
        class Later:
            _fields = Format()._fields[:31] + b"\x02"

        with self.assertRaises(FormatError) as told:
            parse_typed_literal("x", RUST, Later())
        self.assertEqual(told.exception.kind, "UnknownField")

    def test_a_table_that_changes_meanwhile(self):
        class Clears:
            isnative = True

            @property
            def name(self):
                table.clear()
                gc.collect()
                return "u8"

        table = {"".join(("s", str(k))): Clears() for k in range(100)}
        kind = table["s7"]
        self.assertEqual(parse_typed_literal("5s7", table), (5, "s7", kind, 3))
        self.assertEqual(table, {})

    def test_nothing_is_kept(self):
        table, kind = {"u" * 50: "u8"}, "".join(("u", "8"))
        table["w" * 50] = kind
        counts = sys.getrefcount(table), sys.getrefcount(kind)
        for text in ("1" + "w" * 50, "1x", "300" + "w" * 50, "") * 100:
            try:
                parse_typed_literal(text, table)
            except ParseError:
                pass
        self.assertEqual((sys.getrefcount(table), sys.getrefcount(kind)), counts)


if __name__ == "__main__":
    unittest.main()
