"""Tests of numbers, formats and columns, and of the examples that the documentation shows."""

import array
import dataclasses
import doctest
import pathlib
import pickle
import random
import sys
import threading
import unittest

import jadvolni
from jadvolni import (Format, FormatError, ParseError, formats, parse, parse_column,
                      parse_front, parse_literal, parse_partial)

README = pathlib.Path(__file__).resolve().parents[1] / "README.md"

# The least and the greatest number of each type.
BOUNDS = {
    **{f"u{bits}": (0, 2**bits - 1) for bits in (8, 16, 32, 64, 128)},
    **{f"i{bits}": (-(2 ** (bits - 1)), 2 ** (bits - 1) - 1) for bits in (8, 16, 32, 64, 128)},
    "usize": (0, 2**64 - 1),
    "isize": (-(2**63), 2**63 - 1),
}


# Formats of many tests.
GROUPED = Format(digit_separator="_", integer_internal_digit_separator=True)
HEXADECIMAL = Format(mantissa_radix=16, base_prefix="x")


class Case(unittest.TestCase):
    """A case that looks at faults."""

    def fault(self, kind, place, call, *arguments, **named):
        """The call raises a ParseError of this kind at this place, which is handed back."""
        with self.assertRaises(ParseError) as caught:
            call(*arguments, **named)
        self.assertEqual((caught.exception.kind, caught.exception.place), (kind, place))
        return caught.exception


class Numbers(Case):
    """Whole texts and fronts."""

    def test_bounds_of_each_type(self):
        for name, (least, greatest) in BOUNDS.items():
            with self.subTest(type=name):
                self.assertEqual(parse(str(greatest), name), greatest)
                self.assertEqual(parse(str(greatest).encode(), name), greatest)
                self.fault("Overflow", len(str(greatest)) - 1, parse, str(greatest + 1), name)
                if least:
                    self.assertEqual(parse(str(least), name), least)
                    self.fault("Underflow", len(str(least)) - 1, parse, str(least - 1), name)
                else:
                    self.fault("InvalidDigit", 0, parse, "-1", name)

    def test_numbers_round_trip(self):
        for name, (least, greatest) in BOUNDS.items():
            for shift in range(greatest.bit_length()):
                for value in (2**shift, 2**shift - 1, -(2**shift)):
                    if least <= value <= greatest:
                        self.assertEqual(parse(str(value), name), value)

    def test_i64_where_no_type_is_given(self):
        self.assertEqual(parse("-9223372036854775808"), -(2**63))
        self.assertEqual(parse_partial("7"), (7, 1))

    def test_literals(self):
        greatest = 2**128 - 1
        for text, format, literal in (
            ("0xFFull;", formats.C, (255, "ull", 7)),
            (b"1_000i64", formats.RUST, (1000, "i64", 8)),
            (bytearray(b"0b102"), formats.RUST, (2, "2", 5)),
            ("1'0wb", formats.C23, (10, "wb", 5)),
            ("1.5", formats.C, (1, "", 1)),
            (f"{greatest}u128", formats.RUST, (greatest, "u128", 43)),
            ("12n\xe9", None, (12, "n", 3)),
            ("12\0", None, (12, "", 2)),
        ):
            with self.subTest(text=text):
                self.assertEqual(parse_literal(text, format), literal)
        self.fault("Overflow", 39, parse_literal, f"{greatest}0", formats.RUST)
        self.fault("Empty", 0, parse_literal, "u32", formats.RUST)
        self.fault("Empty", 2, parse_literal, "0xu", format=formats.RUST)
        self.fault("Empty", 0, parse_literal, "")

    def test_fronts(self):
        self.assertEqual(parse_partial(b"12, 13", "u8"), (12, 2))
        self.assertEqual(parse_partial(b"x", "u8"), (0, 0))
        self.assertEqual(parse_front(b"12, 13", "u8"), (12, 2))
        self.assertEqual(parse_front("-0x", "i8"), (0, 2))
        least = b"-170141183460469231731687303715884105728;"
        self.assertEqual(parse_partial(least, "i128"), (-(2**127), 40))

    def test_texts_of_each_kind(self):
        for text in ("12", b"12", bytearray(b"12"), memoryview(b"012")[1:]):
            self.assertEqual(parse(text, "u8"), 12)
        self.assertEqual(parse(text="12", type="u8", format=None), 12)

    def test_faults(self):
        error = self.fault("Overflow", 19, parse, b"18446744073709551616", "u64")
        self.assertEqual(str(error), "overflow at byte 19: b'18446744073709551616'")
        self.assertIsInstance(error, ValueError)
        self.assertIsNone(error.field)
        self.fault("Empty", 0, parse, "", "u8")
        self.fault("Empty", 1, parse, "+", "u8")
        self.fault("InvalidDigit", 2, parse, "12 ", "u8")
        self.fault("InvalidDigit", 0, parse, "١", "u8")
        error = self.fault("InvalidDigit", 999, parse, "0" * 999 + "x")
        self.assertEqual(str(error), f"invalid digit at byte 999: b'{'0' * 64}'..")


class Formats(Case):
    """Formats, and those that break a rule."""

    def test_radix_and_prefix(self):
        self.assertEqual(parse("0xFF", "u8", HEXADECIMAL), 255)
        self.assertEqual(parse("zz", "u16", Format(mantissa_radix=36)), 35 * 37)
        self.assertEqual(parse("FFh", "u8", Format(mantissa_radix=16, base_suffix=b"h")), 255)
        self.fault("Overflow", 4, parse, "0x100", "u8", HEXADECIMAL)

    def test_separators(self):
        self.assertEqual(parse("1_000", "u16", GROUPED), 1000)
        self.fault("InvalidDigit", 1, parse, "1__0", "u16", GROUPED)
        several = dataclasses.replace(GROUPED, integer_consecutive_digit_separator=True)
        self.assertEqual(parse("1__0", "u16", several), 10)
        nuls = dataclasses.replace(GROUPED, digit_separator=b"\0")
        self.assertEqual(parse(b"1\x000", "u16", nuls), 10)

    def test_flags(self):
        for kind, text, name in (
            ("InvalidPositiveSign", "+1", "no_positive_mantissa_sign"),
            ("MissingSign", "1", "required_mantissa_sign"),
            ("InvalidLeadingZeros", "01", "no_integer_leading_zeros"),
        ):
            self.fault(kind, 0, parse, text, "u8", Format(**{name: True}))
        self.assertEqual(parse("", "u8", Format(required_mantissa_digits=False)), 0)
        self.assertEqual(parse("0b101", "u8", Format(literal_prefixes=True)), 5)

    def test_formats_that_break_a_rule(self):
        for kind, given in (
            ("InvalidMantissaRadix", {"mantissa_radix": 1}),
            ("InvalidMantissaRadix", {"mantissa_radix": 37}),
            ("InvalidMantissaRadix", {"mantissa_radix": -246}),
            ("InvalidMantissaRadix", {"mantissa_radix": 266}),
            ("InvalidDigitSeparator", {"digit_separator": "5"}),
            ("InvalidBasePrefix", {"base_prefix": "-"}),
            ("InvalidBaseSuffix", {"base_suffix": b"\xff"}),
            ("InvalidPunctuation", {"base_prefix": "x", "base_suffix": "X"}),
            ("InvalidLiteralPrefixes", {"literal_prefixes": True, "mantissa_radix": 16}),
        ):
            with self.subTest(given=given), self.assertRaises(FormatError) as caught:
                Format(**given)
            self.assertEqual((caught.exception.kind, caught.exception.place), (kind, None))

    def test_any_integer_is_a_radix(self):
        class Sixteen:
            def __index__(self):
                return 16

        format = Format(mantissa_radix=Sixteen())
        self.assertEqual((format, repr(format)), (Format(mantissa_radix=16),
                                                  "Format(mantissa_radix=16)"))
        self.assertEqual(Format(mantissa_radix=10), Format())
        for radix in (2**64, -(2**64)):
            self.assertRaises(FormatError, Format, mantissa_radix=radix)

    def test_fields_of_another_kind(self):
        for error, given in (
            (ValueError, {"digit_separator": ""}),
            (ValueError, {"base_prefix": "ab"}),
            (ValueError, {"base_suffix": "é"}),
            (TypeError, {"digit_separator": 95}),
            (TypeError, {"base_prefix": bytearray(b"x")}),
            (TypeError, {"mantissa_radix": "16"}),
            (TypeError, {"mantissa_radix": 16.0}),
            (TypeError, {"required_mantissa_sign": "no"}),
            (TypeError, {"required_mantissa_digits": 0}),
            (TypeError, {"literal_octal_zero": None}),
        ):
            (name,) = given
            with self.subTest(given=given), self.assertRaisesRegex(error, f"^{name} has to be "):
                Format(**given)

    def test_fields_that_change_nothing(self):
        for name, given in (
            ("integer_leading_digit_separator", {}),
            ("integer_internal_digit_separator", {}),
            ("integer_trailing_digit_separator", {"base_prefix": "x"}),
            ("integer_consecutive_digit_separator", {}),
            ("integer_prefix_digit_separator", {"base_prefix": "x"}),
            ("integer_prefix_digit_separator", {"digit_separator": "_"}),
            ("case_sensitive_base_prefix", {"base_suffix": "h"}),
            ("case_sensitive_base_suffix", {"base_prefix": "x"}),
        ):
            with self.subTest(name=name, given=given):
                with self.assertRaisesRegex(ValueError, f"^{name} changes nothing without "):
                    Format(**given, **{name: True})
        with self.assertRaisesRegex(ValueError, "^digit_separator changes nothing without "):
            Format(digit_separator="_")

    def test_fields_that_need_another(self):
        places = ("integer_leading_digit_separator", "integer_trailing_digit_separator")
        for name, text in zip(places, ("_1", "1_")):
            given = Format(digit_separator="_", **{name: True})
            self.assertEqual(parse(text, "u8", given), 1)
            self.fault("InvalidDigit", text.index("_"), parse, text, "u8", GROUPED)
        behind = {"digit_separator": "_", "integer_prefix_digit_separator": True}
        self.assertEqual(parse("0x_1", "u8", Format(base_prefix="x", **behind)), 1)
        self.assertEqual(parse("0x_F", "u8", Format(literal_prefixes=True, **behind)), 15)
        exact = Format(literal_prefixes=True, case_sensitive_base_prefix=True)
        self.fault("InvalidDigit", 1, parse, "0XF", "u8", exact)
        exact = Format(base_suffix="h", case_sensitive_base_suffix=True)
        self.fault("InvalidDigit", 1, parse, "1H", "u8", exact)

    def test_a_format_is_a_value(self):
        format = HEXADECIMAL
        self.assertEqual(repr(format), "Format(mantissa_radix=16, base_prefix='x')")
        self.assertEqual(format, Format(base_prefix=b"x", mantissa_radix=16))
        self.assertEqual(hash(format), hash(Format(base_prefix=b"x", mantissa_radix=16)))
        self.assertNotEqual(format, Format())
        fields = (format.mantissa_radix, format.base_prefix, format.base_suffix)
        self.assertEqual(fields, (16, "x", None))
        self.assertEqual(pickle.loads(pickle.dumps(format)), format)
        with self.assertRaises(AttributeError):
            format.mantissa_radix = 10
        with self.assertRaises(AttributeError):
            del format._fields


class Columns(Case):
    """Columns by one call."""

    def test_columns_of_each_type(self):
        for name, (least, greatest) in BOUNDS.items():
            if not name.endswith("128"):
                with self.subTest(type=name):
                    column = parse_column(f"{least},{greatest},", name, ",")
                    self.assertIsInstance(column, array.array)
                    self.assertEqual(list(column), [least, greatest])

    def test_a_last_separator_ends_no_field(self):
        self.assertEqual(list(parse_column(b"1\n2\n")), [1, 2])
        self.assertEqual(list(parse_column(b"1\n2")), [1, 2])
        self.assertEqual(list(parse_column(b"")), [])

    def test_any_byte_parts_fields(self):
        self.assertEqual(list(parse_column(b"1020", "u8", b"0")), [1, 2])
        self.assertEqual(list(parse_column("3+4", "u8", "+")), [3, 4])
        self.assertEqual(list(parse_column(b"1_2", "u8", b"_", GROUPED)), [1, 2])
        self.assertEqual(list(parse_column(b"1\xff2", "u8", b"\xff")), [1, 2])

    def test_the_first_fault(self):
        error = self.fault("Overflow", 5, parse_column, b"12\n256\nx\n", "u8")
        self.assertEqual((error.field, error.start), (1, 3))
        self.assertEqual(str(error), "overflow at byte 5, in field 2: b'256'")
        self.fault("Empty", 0, parse_column, b",,,", "u8", b",")
        self.fault("Empty", 2, parse_column, b"1,,2", "u8", b",")
        for field in range(4):
            text = b",".join(b"x" if k == field else b"%d" % k for k in range(4))
            error = self.fault("InvalidDigit", 2 * field, parse_column, text, "u8", b",")
            self.assertEqual(error.field, field)

    def test_a_fault_is_pickled(self):
        error = self.fault("Overflow", 5, parse_column, b"12\n256\nx\n", "u8")
        again = pickle.loads(pickle.dumps(error))
        self.assertIs(type(again), ParseError)
        self.assertEqual((str(again), vars(again)), (str(error), vars(error)))

    def test_long_columns(self):
        numbers = [k * k * k % 2**64 for k in range(100_000)]
        text = "\n".join(map(str, numbers)).encode()
        self.assertEqual(list(parse_column(text, "u64")), numbers)
        self.assertEqual(self.fault("Empty", 0, parse_column, b"\n" * 2**24).field, 0)
        self.fault("Overflow", 19, parse_column, b"9" * 2**24, "u64")

    def test_the_format_of_each_field(self):
        self.assertEqual(list(parse_column("0xF F", "u8", " ", HEXADECIMAL)), [15, 15])

    def test_fronts_without_a_digit(self):
        json = Format(no_positive_mantissa_sign=True, no_integer_leading_zeros=True)
        for text, place, format in (
            ("x", 0, None),
            ("+a", 1, None),
            ("-x", 1, None),
            ("[- 5]", 0, json),
            ("- 5]", 1, json),
            ("0xg", 2, Format(literal_prefixes=True)),
            ("0xg", 2, HEXADECIMAL),
            ("", 0, Format(required_mantissa_digits=False)),
        ):
            with self.subTest(text=text):
                self.fault("Empty", place, parse_front, text, "i64", format)

    def test_hostile_columns(self):
        self.assertEqual(list(parse_column(b"7" * 3, "u16", b",")), [777])
        no_digits = Format(required_mantissa_digits=False)
        self.assertEqual(list(parse_column(b"1", "u8", b"1", no_digits)), [0])
        self.assertEqual(list(parse_column(b",,,", "u8", b",", no_digits)), [0, 0, 0])
        prefixed = Format(base_prefix="x")
        self.assertEqual(list(parse_column(b"0x10x1", "u8", b"x", prefixed)), [0, 10, 1])
        self.fault("Empty", 2, parse_column, b"1--2", "i8", b"-")
        self.assertEqual(list(parse_column(b"2026-11-23", "u16", b"-")), [2026, 11, 23])
        text = b"1," * (2**23 - 1) + b"1x"
        error = self.fault("InvalidDigit", 2**24 - 1, parse_column, text, "u8", b",")
        self.assertEqual((error.field, error.start), (2**23 - 1, 2**24 - 2))
        self.assertEqual(len(parse_column(b"0" * 2**24, "u8", b",")), 1)

    def test_a_fault_in_each_field(self):
        faults = (("Empty", "", 0), ("Overflow", "32768", 4), ("Underflow", "-32769", 5))
        for kind, wrong, within in faults:
            for field in range(20):
                fields = ["12345"] * 20
                fields[field] = wrong
                text = ";".join(fields) + ";"
                error = self.fault(kind, 6 * field + within, parse_column, text, "i16", ";")
                self.assertEqual((error.field, error.start), (field, 6 * field))
                self.assertTrue(str(error).endswith(f"in field {field + 1}: b'{wrong}'"))

    def test_columns_beside_int(self):
        for seed in range(200):
            state = random.Random(seed)
            bounds = [2 ** state.randrange(1, 64) for _ in range(50)]
            numbers = [state.randrange(-bound, bound) for bound in bounds]
            text = "|".join(map(str, numbers))
            self.assertEqual(list(parse_column(text, "i64", "|")), numbers)

    def test_threads_share_a_text(self):
        text = b"".join(b"%d\n" % k for k in range(50_000))
        sums = []

        def add():
            sums.append(sum(parse_column(text)))

        threads = [threading.Thread(target=add) for _ in range(4)]
        for thread in threads:
            thread.start()
        for thread in threads:
            thread.join()
        self.assertEqual(sums, [sum(range(50_000))] * 4)


def load_tests(loader, tests, pattern):
    """The examples of the documentation are tests too."""
    tests.addTests(doctest.DocTestSuite(jadvolni))
    for name in ("_fixed", "_format"):
        tests.addTests(doctest.DocTestSuite(sys.modules[f"jadvolni.{name}"]))
    # (the line that ends a block of code would count as expected output)
    shown = README.read_text(encoding="utf-8").replace("```\n", "\n")
    examples = doctest.DocTestParser().get_doctest(shown, {}, README.name, str(README), 0)
    tests.addTest(doctest.DocTestCase(examples))
    return tests


if __name__ == "__main__":
    unittest.main()
