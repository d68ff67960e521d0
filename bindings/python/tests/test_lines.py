"""Tests of columns whose lines have returns, blanks, missing numbers or amounts."""

import array
import inspect
import unittest

from jadvolni import (Fixed, Format, FormatError, ParseError, Sparse, Text, numpy_column,
                      parse_column)

EURO = Fixed("i64", places=2, point=",", group=".")
BLANKS, ANY_ENDS = {"allows_blanks": True}, {"allows_returns": True}


class Lines(unittest.TestCase):
    """What such a column gives."""

    def numbers(self, text, *words, **given):
        """The numbers of a column, which is an array of the type."""
        found = parse_column(text, *words, **given)
        self.assertIs(type(found), array.array)
        return found.typecode, found.tolist()

    def test_returns(self):
        for text in (b"1\r\n-2\r\n", "1\r\n-2\r\n", bytearray(b"1\r\n-2\r\n"), b"1\r\n-2"):
            self.assertEqual(self.numbers(text, "i8", has_returns=True), ("b", [1, -2]))
        for text in (b"1\r\n-2\n", b"1\n-2\r\n", b"1\r\n-2"):
            self.assertEqual(self.numbers(text, "i16", **ANY_ENDS), ("h", [1, -2]))
        self.assertEqual(self.numbers(b"1\n-2\n", "i32", has_returns=False), ("i", [1, -2]))

    def test_blanks(self):
        self.assertEqual(self.numbers(b" 1\n2\t \n\t3", "u8", **BLANKS), ("B", [1, 2, 3]))
        self.assertEqual(self.numbers(b" 1 \r\n2\n", "u8", **BLANKS, **ANY_ENDS), ("B", [1, 2]))

    def test_missing_numbers(self):
        for text, mark, numbers, present in (
            (b"1\n\n3\n", b"", [1, 0, 3], [True, False, True]),
            (b"NA\n0\nNA", "NA", [0, 0, 0], [False, True, False]),
            (b"-\n" * 9 + b"7\n", bytearray(b"-"), [0] * 9 + [7], [False] * 9 + [True]),
            (b"", b"", [], []),
            (b"\n" * 3000, b"", [0] * 3000, [False] * 3000),
        ):
            found = parse_column(text, "i32", missing=mark)
            self.assertIsInstance(found, Sparse)
            self.assertEqual((found.numbers.typecode, found.bits.typecode), ("i", "B"))
            self.assertEqual((found.numbers.tolist(), list(found.present)), (numbers, present))

    def test_amounts(self):
        self.assertEqual(self.numbers("-1.234,50\n7,00\n", EURO), ("q", [-123450, 700]))
        cents = Fixed("u16", places=2, takes_fewer=True)
        self.assertEqual(self.numbers(b"1\n0.5\n655.35", cents), ("H", [100, 50, 65535]))
        found = parse_column("7,00 \r\n?\n-0,05\r\n", EURO, missing="?", **BLANKS, **ANY_ENDS)
        self.assertEqual((found.numbers.tolist(), list(found.present)),
                         ([700, 0, -5], [True, False, True]))

    def test_formats(self):
        grouped = Format(digit_separator="_", integer_internal_digit_separator=True)
        found = self.numbers("1_000\r\n", "u16", b"\n", grouped, **ANY_ENDS)
        self.assertEqual(found, ("H", [1000]))

    def test_any_byte_but_a_line_feed_is_one_of_its_line(self):
        for byte in set(range(256)) - set(b"\n0123456789"):
            with self.assertRaises(ParseError) as told:
                parse_column(b"1\n2%c3\n" % byte, "i64", **ANY_ENDS)
            error = told.exception
            self.assertEqual((error.kind, error.field, error.start), ("InvalidDigit", 1, 2))
            self.assertEqual(error.place, 3)

    def test_long_columns(self):
        numbers = [(-1) ** k * k ** 4 for k in range(20000)]
        text = "\r\n".join(map(str, numbers))
        self.assertEqual(self.numbers(text, "i64", has_returns=True), ("q", numbers))

    def test_as_an_array_of_numpy(self):
        try:
            import numpy
        except ImportError:
            self.skipTest("NumPy isn't installed")
        found = numpy_column("1,50\n-2,00\n", EURO)
        self.assertEqual((found.dtype, found.tolist()), (numpy.dtype("i8"), [150, -200]))
        found = parse_column("1\n\n3\n", missing="").to_numpy()
        self.assertEqual((found.tolist(), found.mean()), ([1, None, 3], 2))


class Faults(unittest.TestCase):
    """What is wrong with such a column."""

    def test_places(self):
        for text, given, kind, place, field, start in (
            (b"1\r\n2\n", {"has_returns": True}, "MissingReturn", 4, 1, 3),
            (b"1\n2\r\n", {"has_returns": True}, "MissingReturn", 1, 0, 0),
            (b"1\r\n2\r", ANY_ENDS, "InvalidDigit", 4, 1, 3),
            (b"1\r\r\n", ANY_ENDS, "InvalidDigit", 1, 0, 0),
            (b"1\n2 3\n", BLANKS, "InvalidDigit", 3, 1, 2),
            (b" \n", BLANKS, "Empty", 1, 0, 0),
            (b"1\n\n", ANY_ENDS, "Empty", 2, 1, 2),
            (b"\nNA\n", {"missing": "NA"}, "Empty", 0, 0, 0),
            (b"NA\nNa\n", {"missing": b"NA"}, "InvalidDigit", 3, 1, 3),
            (b"7\n" * 5000 + b"256\n", ANY_ENDS, "Overflow", 10002, 5000, 10000),
            (b"\"1\"\n", ANY_ENDS, "InvalidDigit", 0, 0, 0),
            (b"1\0\n", ANY_ENDS, "InvalidDigit", 1, 0, 0),
        ):
            with self.subTest(text=text[:20], given=given), self.assertRaises(ParseError) as told:
                parse_column(text, "u8", **given)
            error = told.exception
            self.assertEqual((error.kind, error.place), (kind, place))
            self.assertEqual((error.field, error.start), (field, start))
            self.assertEqual((error.row, error.column), (None, None))

    def test_amounts_that_are_none(self):
        with self.assertRaises(ParseError) as told:
            parse_column("1,50\n12,505\n", EURO)
        self.assertEqual(str(told.exception), "invalid digit at byte 10, in field 2: b'12,505'")
        with self.assertRaises(ParseError) as told:
            parse_column("1\n" + 99 * "x", missing="")
        self.assertEqual(str(told.exception),
                         f"invalid digit at byte 2, in field 2: b'{40 * 'x'}'..")

    def test_separators_that_are_no_line_feed(self):
        for given in ({"has_returns": True}, ANY_ENDS, BLANKS, {"missing": ""}, {"type": EURO}):
            for separator in (b",", ";", b"\r"):
                with self.assertRaisesRegex(ValueError, "^separator has to be a line feed where"):
                    parse_column("1", separator=separator, **given)
            with self.assertRaisesRegex(ValueError, "^separator has to be one byte"):
                parse_column("1", separator="ab", **given)
        self.assertEqual(parse_column("1,2", "u8", ",", missing=None).tolist(), [1, 2])

    def test_wrong_arguments(self):
        class Torn:
            def __bool__(self):
                raise KeyError("torn")

        with self.assertRaises(KeyError):
            parse_column("1", has_returns=Torn())
        for given, kind, message in (
            ({"missing": 5}, TypeError, "^missing has to be a str or contiguous bytes"),
            ({"type": "u128"}, ValueError, "^type has to have 64 bits or fewer in a column"),
            ({"type": Fixed("i128", places=2)}, ValueError, "^type has to have 64 bits or fewer"),
            ({"type": Text()}, TypeError, "^type has to be a str such as 'u64', and not Text"),
            ({"type": EURO, "format": Format()}, TypeError, "^format has to be None where the"),
            ({"format": "C"}, TypeError, "^format has to be a jadvolni.Format or None"),
            ({"text": None}, TypeError, "^text has to be a str or contiguous bytes"),
            ({"quotes": True}, TypeError, r"^parse_column\(\) has no argument 'quotes'"),
        ):
            with self.subTest(given=given), self.assertRaisesRegex(kind, message):
                parse_column(**{"text": "1", "has_returns": True, **given})
        with self.assertRaisesRegex(TypeError, "at most 4 arguments by place, and was given 5"):
            parse_column("1", "u8", b"\n", None, True)

    def test_formats_that_are_none(self):
        class Broken:
            _fields = bytes([37]) + Format()._fields[1:]

        with self.assertRaises(FormatError) as told:
            parse_column("x", "u8", b"\n", Broken(), **ANY_ENDS)
        self.assertEqual(told.exception.kind, "InvalidMantissaRadix")

    def test_signature(self):
        names = list(inspect.signature(parse_column).parameters)
        self.assertEqual(names[4:], ["has_returns", "allows_returns", "allows_blanks", "missing"])


if __name__ == "__main__":
    unittest.main()
