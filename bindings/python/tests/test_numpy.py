"""Tests of numpy_column, where NumPy is installed; without it, that it says so."""

import importlib.util
import unittest

import jadvolni
from jadvolni import numpy_column

HAS_NUMPY = importlib.util.find_spec("numpy") is not None


@unittest.skipUnless(HAS_NUMPY, "NumPy isn't installed")
class NumpyColumns(unittest.TestCase):
    """Columns as NumPy arrays."""

    def test_columns_of_each_type(self):
        for bits in (8, 16, 32, 64):
            half = 2 ** (bits - 1)
            for letter, least, greatest in (("u", 0, 2 * half - 1), ("i", -half, half - 1)):
                with self.subTest(type=f"{letter}{bits}"):
                    column = numpy_column(f"{least};{greatest}", f"{letter}{bits}", ";")
                    self.assertEqual(str(column.dtype), f"{'u' * (letter == 'u')}int{bits}")
                    self.assertEqual(column.tolist(), [least, greatest])
        self.assertEqual(str(numpy_column("1", "usize").dtype), "uint64")
        self.assertEqual(str(numpy_column("1", "isize").dtype), "int64")

    def test_types_and_integers_of_numpy(self):
        import numpy

        for bits in (8, 16, 32, 64):
            for sign in ("", "u"):
                kind = getattr(numpy, f"{sign}int{bits}")
                with self.subTest(type=kind):
                    self.assertEqual(numpy_column("1;2", kind, ";").dtype, kind)
                    self.assertEqual(jadvolni.parse("7", kind), 7)
                    self.assertEqual(jadvolni.parse("7", numpy.dtype(kind).name), 7)
                    format = jadvolni.Format(mantissa_radix=kind(16))
                    self.assertEqual(repr(format), "Format(mantissa_radix=16)")
        for kind in (numpy.float64, numpy.bool_, numpy.str_):
            self.assertRaises(ValueError, jadvolni.parse, "1", kind)
        for radix in (numpy.float64(16), numpy.array([16, 16])):
            self.assertRaises(TypeError, jadvolni.Format, mantissa_radix=radix)

    def test_an_array_is_the_callers(self):
        column = numpy_column(b"1\n2\n3\n")
        self.assertEqual(column.shape, (3,))
        column += 1
        self.assertEqual(column.tolist(), [2, 3, 4])

    def test_no_fields(self):
        column = numpy_column(b"", "u16")
        self.assertEqual((column.shape, str(column.dtype)), ((0,), "uint16"))

    def test_what_is_read_may_be_an_array(self):
        import numpy

        text = numpy.frombuffer(b"12,7", dtype="u1")
        self.assertEqual(numpy_column(text, "u8", ",").tolist(), [12, 7])
        for other, reason in (
            (text[::2], "isn't contiguous"),
            (text.reshape(2, 2), "hasn't one dimension"),
            (numpy.array([b"1", b"2"]), "items aren't bytes"),
            (numpy.array([b"12", b"34"]), "items aren't bytes"),
            (numpy.array(["12", "34"]), "items aren't bytes"),
            (numpy.array([12, 34]), "items aren't bytes"),
        ):
            with self.subTest(other=other), self.assertRaisesRegex(TypeError, reason):
                numpy_column(other, "u8", ",")

    def test_beside_numpy(self):
        import numpy

        numbers = [k**5 % 2**63 * (-1) ** k for k in range(10_000)]
        text = "".join(f"{k}\n" for k in numbers).encode()
        self.assertTrue((numpy_column(text) == numpy.array(numbers)).all())

    @unittest.skipUnless(importlib.util.find_spec("pandas"), "pandas isn't installed")
    def test_pandas_takes_the_arrays_of_a_table(self):
        import numpy
        import pandas

        table = jadvolni.parse_table(b"1;-2\n3;4\n", {"day": "u16", "cents": "i64"}, ";")
        frame = pandas.DataFrame(table, copy=False)
        for name, values in table.items():
            self.assertEqual(frame[name].tolist(), values.tolist())
            self.assertTrue(numpy.shares_memory(frame[name], values))

    def test_faults(self):
        with self.assertRaises(jadvolni.ParseError) as caught:
            numpy_column(b"12,256,x", "u8", separator=b",")
        self.assertEqual((caught.exception.place, caught.exception.field), (5, 1))
        self.assertRaises(ValueError, numpy_column, b"1", "u128")
        self.assertRaises(TypeError, numpy_column, 12)


@unittest.skipIf(HAS_NUMPY, "NumPy is installed")
class WithoutNumpy(unittest.TestCase):
    """The call without NumPy."""

    def test_it_says_what_is_missing(self):
        self.assertRaises(ImportError, numpy_column, b"1")


if __name__ == "__main__":
    unittest.main()
