"""Tests of the bounds of a number."""

import gc
import sys
import unittest

from jadvolni import Format, FormatError, ParseError, formats, parse, parse_front


class Bounds(unittest.TestCase):
    """A number from a least to a greatest one."""

    def fails(self, message, bounds, *arguments, **given):
        """A text has a number that is out of these bounds."""
        with self.assertRaises(ParseError) as told:
            parse(*arguments, **given)
        error = told.exception
        self.assertEqual((str(error), error.kind, error.place), (message, "OutOfBounds", 0))
        self.assertEqual((error.min, error.max), bounds)

    def test_numbers_within(self):
        for text in "1", "80", "65535":
            found = parse(text, "u16", formats.JSON, min=1, max=65535)
            self.assertEqual(found, int(text))
        self.assertEqual(parse("0", "u8", min=0), 0)
        self.assertEqual(parse("255", "u8", max=255), 255)
        self.assertEqual(parse("-5", "i8", min=-5, max=-5), -5)
        for given in {}, {"min": None}, {"max": None}, {"min": None, "max": None}:
            self.assertEqual(parse("7", "u8", **given), 7)
        self.assertEqual(parse("7", "u8", min=-10**40, max=10**40), 7)
        self.assertEqual(parse(str(2**127), "u128", min=2**127), 2**127)

    def test_numbers_beyond(self):
        between = {"min": 1, "max": 65535}
        json, ports = formats.JSON, (1, 65535)
        self.fails("0 is not from 1 to 65535", ports, "0", "u16", json, **between)
        self.fails("70000 is not from 1 to 65535", ports, "70000", "u16", json, **between)
        self.fails("70000 is not from 1 to 65535", ports, "70000", "u32", json, **between)
        self.fails("-1 is not from 1 to 65535", ports, "-1", "u16", json, **between)
        self.fails("-129 is not from -5 to 5", (-5, 5), "-129", "i8", min=-5, max=5)
        self.fails("12C is not from 0 to 255", (0, 255), "12C", "u8", Format(mantissa_radix=16),
                   max=255)
        great = str(2**128 - 1)
        self.fails(f"{great} is not from {-2**63} to 9", (-2**63, 9), great, "i64", max=9)
        nines = "9" * 80
        self.fails(f"{'9' * 40}.. is not from 0 to 9", (0, 9), nines, "u8", max=9)
        self.fails(f"-{'9' * 39}.. is not from 9 to 127", (9, 127), f"-{nines}", "i8", min=9)
        self.fails(f"{'9' * 40} is not from 0 to 9", (0, 9), nines[:40].encode(), "u8", max=9)

    def test_the_types_end_is_a_bound(self):
        """Where no bound is given, or one that the type lacks."""
        self.fails("0 is not from 1 to 255", (1, 255), "0", "u8", min=1)
        self.fails("-1 is not from 1 to 65535", (1, 65535), "-1", "u16", min=1)
        self.fails("-1 is not from 0 to 9", (0, 9), "-1", "u16", max=9)
        self.fails("256 is not from 0 to 9", (0, 9), "256", "u8", max=9)
        self.fails("300 is not from 1 to 255", (1, 255), "300", "u8", min=1)
        self.fails("300 is not from 0 to 255", (0, 255), "300", "u8", formats.JSON, max=1000)
        self.fails("-129 is not from -128 to 5", (-128, 5), "-129", "i8", formats.JSON, max=5)
        for bits in 8, 16, 32, 64, 128:
            for name, least, most in ((f"u{bits}", 0, 2**bits - 1),
                                      (f"i{bits}", -2**(bits - 1), 2**(bits - 1) - 1)):
                given = {"min": -10**50, "max": 10**50}
                for number in least, most:
                    self.assertEqual(parse(str(number), name, **given), number)
                for number in least - 1, most + 1:
                    self.fails(f"{number} is not from {least} to {most}", (least, most),
                               str(number), name, **given)
        for name in "usize", "isize":
            least, most = (0, 2**64 - 1) if name == "usize" else (-2**63, 2**63 - 1)
            self.fails(f"{most + 1} is not from {least} to {most}", (least, most), str(most + 1),
                       name, max=most)

    def test_what_is_shown(self):
        """A text as it is given, with the numbers of bytes that can't be printed."""
        self.fails("0x1000000 is not from 0 to 16777215", (0, 0xFFFFFF), "0x1000000", "u32",
                   formats.RUST, max=0xFFFFFF)
        self.fails("70'000 is not from 0 to 9", (0, 9), "70'000", "u32", formats.CPP14, max=9)
        separated = Format(digit_separator=b"\0", integer_internal_digit_separator=True)
        self.fails("6\\x000 is not from 1 to 5", (1, 5), "6\0" + "0", "u8", separated, min=1, max=5)
        empty = Format(required_mantissa_digits=False)
        self.fails(" is not from 1 to 255", (1, 255), "", "u8", empty, min=1)

    def test_other_faults(self):
        """What isn't a number is reported as without bounds, also where its front leaves them."""
        for text, kind, given in (("", "u8", {"min": 1}), ("x", "u8", {"max": 1}),
                                  ("+1", "u8", {"max": 1}), ("01", "u8", {"max": 1}),
                                  ("-x", "u8", {"max": 1}), ("-0", "u8", {"max": 1}),
                                  ("7x", "u8", {"min": 9}), ("-", "i8", {"min": 9})):
            with self.assertRaises(ParseError) as wanted:
                parse(text, kind, formats.JSON)
            with self.assertRaises(ParseError) as told:
                parse(text, kind, formats.JSON, **given)
            for name in "kind", "place", "min", "max", "args":
                self.assertEqual(getattr(told.exception, name), getattr(wanted.exception, name))
            self.assertIsNone(told.exception.min)
        with self.assertRaises(ParseError) as told:
            parse("70000x", "u16", min=1, max=65535)
        self.assertEqual((told.exception.kind, told.exception.place), ("InvalidDigit", 5))

        class Reserved:
            _fields = b"\x0a" + bytes(30) + b"\x01"

        self.assertRaises(FormatError, parse, "1", "u8", Reserved(), min=1, max=2)

    def test_wrong_bounds(self):
        for given in ({"min": "1"}, {"max": 1.5}, {"min": [1]}):
            name = next(iter(given))
            with self.assertRaisesRegex(TypeError, f"{name} has to be an integer or None, and not"):
                parse("1", "u8", **given)
        with self.assertRaisesRegex(ValueError, "min has to be at most max, and 5 is more than 3"):
            parse("4", "u8", min=5, max=3)
        for given, told in (
            ({"min": 1024}, "1024 is more than 255"),
            ({"max": -1}, "0 is more than -1"),
            ({"min": 256, "max": 300}, "256 is more than 255"),
        ):
            with self.assertRaises(ValueError) as caught:
                parse("80", "u8", **given)
            self.assertIs(type(caught.exception), ValueError)
            self.assertEqual(str(caught.exception), f"min has to be at most max, and {told}")
        for given in {"min": 10**5000, "max": 0}, {"min": 10**5000}:  # (which Python doesn't write)
            with self.assertRaisesRegex(ValueError, "limit"):
                parse("4", "u8", **given)
        with self.assertRaisesRegex(TypeError, "at most 3 arguments by place, and was given 4"):
            parse("1", "u8", None, 1)
        self.assertRaises(TypeError, parse_front, "1", "u8", min=1)

        class Raising:
            def __index__(self):
                raise OSError("none")

        self.assertRaises(OSError, parse, "1", "u8", min=Raising())

    def test_memory_is_given_back(self):
        least, most, text = 10**30, 10**31, "5" * 31
        gc.collect()
        before = [sys.getrefcount(it) for it in (least, most, text)]
        for given in [(text, "u128"), ("7", "u8"), ("9" * 50, "u8"), ("x", "u8")] * 100:
            try:
                parse(*given, min=least, max=most)
            except ValueError:
                pass
        del given
        self.assertEqual([sys.getrefcount(it) for it in (least, most, text)], before)


if __name__ == "__main__":
    unittest.main()
