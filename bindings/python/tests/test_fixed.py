"""Tests of fixed-point numbers: beside Python's decimal, in each type, and misused."""

import copy
import decimal
import io
import pickle
import random
import sys
import unittest

from jadvolni import (Fixed, Format, FormatError, ParseError, formats, iter_column, parse,
                      parse_front, parse_partial)

CENTS = Fixed("i64", places=2)
FEWER = Fixed("i64", places=2, takes_fewer=True)
GROUPED = Fixed("i64", places=2, point=",", group=".")
BOUNDS = {
    **{f"u{bits}": (0, 2**bits - 1) for bits in (8, 16, 32, 64, 128)},
    **{f"i{bits}": (-(2 ** (bits - 1)), 2 ** (bits - 1) - 1) for bits in (8, 16, 32, 64, 128)},
    "usize": (0, 2**64 - 1),
    "isize": (-(2**63), 2**63 - 1),
}


def written(number, places):
    """A number as a fixed-point one, by its digits."""
    digits = str(abs(number)).rjust(places + 1, "0")
    whole, fraction = digits[:len(digits) - places], digits[len(digits) - places:]
    return "-" * (number < 0) + whole + "." * (places > 0) + fraction


class FixedPoint(unittest.TestCase):
    """Whole texts and fronts."""

    def fault(self, kind, place, call, *words, **given):
        """A call raises a ParseError of a kind at a place."""
        with self.assertRaises(ParseError) as told:
            call(*words, **given)
        self.assertEqual((told.exception.kind, told.exception.place), (kind, place))
        return told.exception

    def test_amounts(self):
        for text, fixed, number in (
            ("12.50", CENTS, 1250), ("-0.05", CENTS, -5), ("+12.50", CENTS, 1250),
            ("0.00", CENTS, 0), ("007.10", CENTS, 710), (b"-80000.00", CENTS, -8000000),
            ("12.5", FEWER, 1250), ("12", FEWER, 1200), ("12.50", FEWER, 1250),
            ("-1.234,50", GROUPED, -123450), ("1234,50", GROUPED, 123450),
            ("1.2,00", GROUPED, 1200),
            ("1,234.00", Fixed(places=2, group=","), 123400), ("7", Fixed(places=0), 7),
            (bytearray(b"1.000"), Fixed("u16", places=3), 1000),
            (memoryview(b"0.5"), Fixed("i8", places=1), 5),
            ("12:50", Fixed(places=2, point=b":"), 1250),
        ):
            with self.subTest(text=text, fixed=fixed):
                self.assertEqual(parse(text, fixed), number)
                self.assertEqual(parse_front(text, fixed), (number, len(text)))

    def test_faults(self):
        for text, fixed, kind, place in (
            ("12.505", CENTS, "InvalidDigit", 5), ("12,505", GROUPED, "InvalidDigit", 5),
            ("12.5", CENTS, "Empty", 4), ("12", CENTS, "Empty", 2), ("12.", FEWER, "Empty", 3),
            ("12.x", FEWER, "InvalidDigit", 3), (".50", CENTS, "InvalidDigit", 0),
            ("", CENTS, "Empty", 0), ("-", CENTS, "Empty", 1), ("12,50", CENTS, "InvalidDigit", 2),
            ("1.5", Fixed(places=0), "InvalidDigit", 1), ("12.5 ", FEWER, "InvalidDigit", 4),
            ("2.56", Fixed("u8", places=2), "Overflow", 3),
            ("-0.01", Fixed("u8", places=2), "InvalidDigit", 0),
            ("-1.29", Fixed("i8", places=2), "Underflow", 4),
            ("12.50\0", CENTS, "InvalidDigit", 5),
            ("3", Fixed("u8", places=2, takes_fewer=True), "Overflow", 1),
        ):
            with self.subTest(text=text, fixed=fixed):
                error = self.fault(kind, place, parse, text, fixed)
                self.assertIn(f" at byte {place}: {text.encode()!r}", str(error))

    def test_fronts(self):
        self.assertEqual(parse_front("12.50 EUR", CENTS), (1250, 5))
        self.assertEqual(parse_front("12. And", FEWER), (1200, 2))
        # Of a stream, these aren't final, though they stop before the text's end.
        self.assertEqual(parse_front("12.", FEWER), (1200, 2))
        self.assertEqual(parse_front("12.", Fixed(places=0)), (12, 2))
        self.fault("Overflow", 1, parse_front, "3.", Fixed("u8", places=2, takes_fewer=True))
        self.assertEqual(parse_front("12.5x", FEWER), (1250, 4))
        self.fault("InvalidDigit", 5, parse_front, "12.505", CENTS)
        self.fault("Empty", 0, parse_front, "EUR", CENTS)

    def test_a_separator_is_no_point(self):
        """With a comma as a separator an amount is read wrong, and with no fault."""
        comma = Format(digit_separator=",", integer_internal_digit_separator=True)
        self.assertEqual(parse("12,505", "i64", comma), 12505)
        self.fault("InvalidDigit", 5, parse, "12,505", Fixed("i64", places=2, point=","))
        self.assertEqual(parse("12,50", Fixed("i64", places=2, point=",")), 1250)

    def test_bounds_of_each_type(self):
        for name, (least, greatest) in BOUNDS.items():
            for places in (0, 1, 2, 19, 38):
                fixed = Fixed(name, places=places)
                with self.subTest(type=name, places=places):
                    for number in (least, greatest, 0, 1):
                        self.assertEqual(parse(written(number, places), fixed), number)
                        front = parse_front(written(number, places) + ";", fixed)
                        self.assertEqual(front, (number, len(written(number, places))))
                    over = written(greatest + 1, places)
                    self.fault("Overflow", len(over) - 1, parse, over, fixed)
                    if least:
                        under = written(least - 1, places)
                        self.fault("Underflow", len(under) - 1, parse, under, fixed)

    def test_random_texts_beside_decimal(self):
        chance = random.Random(5)
        exact = decimal.Context(prec=99)
        counts = {True: 0, False: 0}
        for _ in range(20_000):
            places = chance.randrange(5)
            fixed = Fixed("i64", places=places, takes_fewer=True)
            text = "".join(chance.choices("0123456789.-", (9,) * 10 + (9, 2),
                                          k=chance.randrange(1, 9)))
            try:
                number = exact.create_decimal(text).scaleb(places, exact)
            except decimal.InvalidOperation:
                number = None
            wanted = None
            if number is not None and text.strip("-")[:1] != "." and text[-1] != ".":
                wanted = int(number) if number == int(number) else None
            # (It may have zeros behind the last place, which decimal takes.)
            if "." in text and len(text) - text.index(".") - 1 > places:
                wanted = None
            counts[wanted is not None] += 1
            try:
                self.assertEqual(parse(text, fixed), wanted, text)
            except ParseError as error:
                self.assertIsNone(wanted, text)
                self.assertLessEqual(error.place, len(text))
        self.assertGreater(min(counts.values()), 1000)

    def test_formats_of_the_integer_part(self):
        strict = Fixed(places=2, format=formats.JSON)
        self.assertEqual(parse("-1.50", strict), -150)
        self.fault("InvalidLeadingZeros", 0, parse, "01.50", strict)
        self.fault("InvalidPositiveSign", 0, parse, "+1.50", strict)
        self.assertEqual(parse("+.50", Fixed(places=2, format=Format(
            required_mantissa_digits=False, required_mantissa_sign=True))), 50)
        spaced = Format(digit_separator=" ", integer_internal_digit_separator=True)
        self.assertEqual(parse("1 234,50", Fixed(places=2, point=",", format=spaced)), 123450)
        for given, kind in (
            ({"mantissa_radix": 16}, "InvalidFixedRadix"),
            ({"base_suffix": "d"}, "InvalidFixedAffix"),
            ({"base_prefix": "x"}, "InvalidFixedAffix"),
            ({"literal_prefixes": True}, "InvalidFixedAffix"),
            ({"literal_octal_zero": True}, "InvalidFixedAffix"),
        ):
            with self.assertRaises(FormatError) as told:
                Fixed(places=2, format=Format(**given))
            self.assertEqual(told.exception.kind, kind)

    def test_bounds_of_the_caller(self):
        self.assertEqual(parse("12.50", CENTS, min=0, max=2000), 1250)
        for text, message in (
            ("20.01", "20.01 is not from 0.00 to 20.00"),
            ("-0.01", "-0.01 is not from 0.00 to 20.00"),
            ("100000000000000000000.00", "100000000000000000000.00 is not from 0.00 to 20.00"),
        ):
            with self.assertRaises(ParseError) as told:
                parse(text, CENTS, min=0, max=2000)
            self.assertEqual(str(told.exception), message)
            self.assertEqual((told.exception.min, told.exception.max), (0, 2000))
        for text, places, message in (
            ("0,200", 3, "0,200 is not from -0,128 to 0,005"),
            ("-13", 1, "-13 is not from -12,8 to 0,5"),
            ("6", 0, "6 is not from -128 to 5"),
        ):
            with self.assertRaisesRegex(ParseError, f"^{message}$"):
                parse(text, Fixed("i8", places=places, point=",", takes_fewer=True), max=5)
        with self.assertRaises(ParseError) as told:
            parse(b"1\xff2", Fixed("u8", places=1, point=b"\xff"), max=5)
        self.assertEqual(str(told.exception), r"1\xff2 is not from 0\xff0 to 0\xff5")
        self.fault("InvalidDigit", 5, parse, "12.505", CENTS, max=5)

    def test_descriptions_that_break_a_rule(self):
        for given, kind in (
            ({"places": 39}, "InvalidPlaces"), ({"places": -1}, "InvalidPlaces"),
            ({"places": 256}, "InvalidPlaces"), ({"places": 10**30}, "InvalidPlaces"),
            ({"point": "7"}, "InvalidPoint"), ({"point": "+"}, "InvalidPoint"),
            ({"point": b"-"}, "InvalidPoint"), ({"group": "."}, "InvalidPoint"),
            ({"group": "+"}, "InvalidDigitSeparator"), ({"group": "7"}, "InvalidDigitSeparator"),
            ({"group": b"\xff"}, "InvalidDigitSeparator"),
        ):
            with self.subTest(given=given), self.assertRaises(FormatError) as told:
                Fixed(**{"places": 2, **given})
            self.assertEqual(told.exception.kind, kind)
        grouped = Format(digit_separator="_", integer_internal_digit_separator=True)
        for words, given, kind, message in (
            (("i64", 2), {}, TypeError, "positional"),
            ((), {"places": "2"}, TypeError, "^places has to be an integer, and not str$"),
            ((), {"places": 2.0}, TypeError, "^places has to be an integer, and not float$"),
            ((), {"point": None}, TypeError, "^point has to be one byte, and not NoneType$"),
            ((), {"point": 46}, TypeError, "^point has to be one byte, and not int$"),
            ((), {"point": ""}, ValueError, "^point has to be one byte, and '' has 0$"),
            ((), {"point": "··"}, ValueError, "^point has to be one byte, and '··' has 4$"),
            ((), {"point": "\0"}, ValueError, "^point has to be one byte that isn't 0$"),
            ((), {"group": 7}, TypeError, "^group has to be one byte or None, and not int$"),
            ((), {"takes_fewer": 1}, TypeError, "^takes_fewer has to be True or False, and not"),
            ((), {"format": "C"}, TypeError, "^format has to be a jadvolni.Format or None, and"),
            ((), {"group": ",", "format": grouped}, ValueError, "^group has to be None where"),
            (("u7",), {}, ValueError, "^type has to be u8, u16"),
            ((7,), {}, TypeError, "^type has to be a str"),
            ((CENTS,), {}, TypeError, "^type has to be a str"),
        ):
            with self.subTest(words=words, given=given):
                self.assertRaisesRegex(kind, message, Fixed, *words, **{"places": 2, **given})
        self.assertRaisesRegex(TypeError, "places", Fixed)

    def test_calls_that_take_none(self):
        for call in parse, parse_front:
            with self.assertRaisesRegex(TypeError, "^format has to be None where the type is a"):
                call("1.00", CENTS, Format())
        self.assertEqual(parse("1.00", CENTS, None), 100)
        with self.assertRaisesRegex(TypeError, r"^parse_partial\(\) reads no Fixed: take parse_"):
            parse_partial("1.00", CENTS)
        with self.assertRaisesRegex(TypeError, "^type has to be a str such as 'u64', and not"):
            next(iter_column(io.BytesIO(b"1.00"), CENTS))

    def test_what_looks_like_one(self):
        class Alike:
            type = "u8"

            def __init__(self, fixed):
                self.fixed = fixed

            @property
            def _fixed(self):
                if isinstance(self.fixed, BaseException):
                    raise self.fixed
                return self.fixed

        self.assertEqual(parse("1.5", Alike(Fixed(places=1)._fixed)), 15)
        for fixed in (b"", bytes(47), bytes(49), 7, None, AttributeError()):
            self.assertRaises(TypeError, parse, "1", Alike(fixed))
        for error in (KeyboardInterrupt, MemoryError, ValueError):
            self.assertRaises(error, parse, "1", Alike(error()))
        reserved = Alike(Fixed(places=1)._fixed[:-1] + b"\1")
        with self.assertRaises(FormatError) as told:
            parse("1.5", reserved)
        self.assertEqual(told.exception.kind, "UnknownField")
        other = Alike(Fixed(places=1)._fixed)
        other.type = "u7"
        self.assertRaises(ValueError, parse, "1.5", other)
        del Alike.type, other.type
        self.assertRaises(AttributeError, parse, "1.5", other)

    def test_what_a_description_is(self):
        self.assertEqual(repr(CENTS), "Fixed('i64', places=2)")
        self.assertEqual(repr(GROUPED), "Fixed('i64', places=2, point=',', group='.')")
        self.assertEqual(Fixed(places=2), CENTS)
        self.assertEqual(hash(Fixed(places=2)), hash(CENTS))
        for other in (FEWER, GROUPED, Fixed("u64", places=2), Fixed(places=3), 7, None):
            self.assertNotEqual(CENTS, other)
        for same in (pickle.loads(pickle.dumps(GROUPED)), copy.deepcopy(GROUPED),
                     eval(repr(GROUPED))):
            self.assertEqual((same, parse("1.234,50", same)), (GROUPED, 123450))
        with self.assertRaises(AttributeError):
            CENTS.places = 3

    def test_references_stay(self):
        text, fixed = bytearray(b"12.50"), Fixed("i64", places=2, takes_fewer=True)
        kept = text, fixed, fixed._fixed, fixed.type, ParseError
        before = [sys.getrefcount(it) for it in kept]
        for given in (fixed, 7, CENTS) * 200:
            for call, words in ((parse, (text, given)), (parse_front, (text, given)),
                                (parse_partial, (text, given)), (parse, (b"12.505", given)),
                                (parse, (text, given, Format())), (parse, (7, given))):
                try:
                    call(*words)
                except (TypeError, ValueError):
                    pass
        del given, words
        self.assertEqual([sys.getrefcount(it) for it in kept], before)
        text.append(7)  # (no buffer is kept)


if __name__ == "__main__":
    unittest.main()
