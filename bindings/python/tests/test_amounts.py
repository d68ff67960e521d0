"""Tests of columns of fixed-point numbers: beside decimal, by threads and blocks, and misused."""

import decimal
import importlib.util
import io
import random
import tempfile
import unittest
from array import array

from jadvolni import (Column, Fixed, Format, ParseError, Sparse, iter_table, parse, parse_table,
                      read_table)

EURO = Fixed("i64", places=2, point=",", group=".")
FEWER = Fixed("i32", places=3, takes_fewer=True)
LEDGER = {"day": "u16", "what": None, "amount": EURO}
TEXT = b"1;rent;-1.234,50\n2;;0,05\n365;bank;+7,00\n"
HAS_NUMPY = importlib.util.find_spec("numpy") is not None
HAS_PANDAS = HAS_NUMPY and importlib.util.find_spec("pandas") is not None


def random_rows(count):
    """Rows of amounts, and the amounts in units of the last place, by Python's decimal."""
    chosen, lines, wanted = random.Random(count), [], []
    for _ in range(count):
        cents = chosen.randrange(-10**9, 10**9)
        wanted.append(cents)
        amount = f"{decimal.Decimal(cents).scaleb(-2):,.2f}"
        lines.append(f"7;{'x' * chosen.randrange(9)};{amount.translate({44: 46, 46: 44})}\n")
    return "".join(lines).encode(), wanted


class Amounts(unittest.TestCase):
    """Columns of a Fixed."""

    def test_texts_files_and_blocks(self):
        wanted = [-123450, 5, 700]
        self.assertEqual(parse_table(TEXT, LEDGER, ";")["amount"].tolist(), wanted)
        table = read_table(io.BytesIO(TEXT), LEDGER, ";", size=9)
        self.assertEqual(table["amount"].tolist(), wanted)
        found = iter_table(io.BytesIO(TEXT), LEDGER, ";", rows=2)
        self.assertEqual([it["amount"].tolist() for it in found], [wanted[:2], wanted[2:]])

    def test_by_the_names_of_a_header(self):
        text = b"amount;what;day\r\n-1.234,50;rent;1\r\n0,05;;2\r\n"
        table = parse_table(text, {"day": "u8", "amount": EURO}, ";", True, header=True)
        self.assertEqual({name: it.tolist() for name, it in table.items()},
                         {"day": [1, 2], "amount": [-123450, 5]})

    def test_arrays_are_of_the_type(self):
        for name, code in (("i8", "b"), ("u8", "B"), ("i16", "h"), ("u16", "H"), ("i32", "i"),
                           ("u32", "I"), ("i64", "q"), ("u64", "Q"), ("usize", "Q"),
                           ("isize", "q")):
            values = parse_table("0.7\n1.0\n", {"a": Fixed(name, places=1)})["a"]
            with memoryview(values) as view:
                self.assertEqual({"l": "q", "L": "Q"}.get(view.format, view.format), code)
                self.assertEqual(view.tolist(), [7, 10])

    def test_each_field_of_a_fixed_counts(self):
        for fixed, text, wanted in (
            (FEWER, "1.5\n-2\n0.125\n", [1500, -2000, 125]),
            (Fixed(places=0), "12\n-7\n", [12, -7]),
            (Fixed(places=2, point=":"), "1:05\n", [105]),
            (Fixed(places=2, point=",", group="."), "1.2.3,45\n", [12345]),
            (Fixed("u64", places=19), "1.8446744073709551615\n", [18446744073709551615]),
            (Fixed("i64", places=18), "-9.223372036854775808\n", [-2**63]),
            (Fixed(places=1, format=Format(required_mantissa_sign=True)), "+1.5\n", [15]),
        ):
            with self.subTest(fixed=fixed):
                self.assertEqual(parse_table(text, {"a": fixed}, ";")["a"].tolist(), wanted)
                self.assertEqual([parse(it, fixed) for it in text.split()], wanted)

    def test_a_fault_is_that_of_the_cell(self):
        for fixed, cell, kind, place in (
            (EURO, "12,505", "InvalidDigit", 5), (EURO, "12.50", "Empty", 5),
            (EURO, "", "Empty", 0),
            (FEWER, "2147483.648", "Overflow", 10), (FEWER, "-2147483.649", "Underflow", 11),
            (FEWER, "1.", "Empty", 2), (FEWER, "1.5 ", "InvalidDigit", 3),
            (Fixed("u8", places=2), "2.56", "Overflow", 3),
        ):
            with self.subTest(cell=cell), self.assertRaises(ParseError) as told:
                parse_table(f"{'1,00' if fixed is EURO else '1.00'}\n{cell}\n", {"a": fixed}, ";")
            error = told.exception
            self.assertEqual((error.kind, error.place, error.row, error.name, error.text),
                             (kind, 5 + place, 1, "a", cell.encode()))
            with self.subTest(cell=cell), self.assertRaises(ParseError) as alone:
                parse(cell, fixed)
            self.assertEqual((alone.exception.kind, alone.exception.place), (kind, place))

    def test_a_message_shows_the_amount(self):
        with self.assertRaises(ParseError) as told:
            parse_table("day;amount\n1;12,505\n", {"amount": EURO}, ";", header=True)
        self.assertEqual(str(told.exception),
                         'line 2, "amount": "12,505": invalid digit at byte 5 of the cell')

    def test_missing_amounts(self):
        column = {"amount": Column(EURO, may_miss=True)}
        for text, missing in ((b"1,50\n\n-2,00\n", b""), (b"1,50\nNA\n-2,00\n", b"NA")):
            for size in (1, 3, 100):
                table = read_table(io.BytesIO(text), column, ";", missing=missing, size=size)
                found = table["amount"]
                self.assertIsInstance(found, Sparse)
                self.assertEqual((list(found.numbers), list(found.present)),
                                 ([150, 0, -200], [True, False, True]))

    def test_out_holds_amounts(self):
        out = {"day": array("H", [9] * 4), "amount": array("q", [9] * 4)}
        table = parse_table(TEXT, LEDGER, ";", out=out)
        self.assertEqual((list(table["amount"]), list(out["amount"])),
                         ([-123450, 5, 700], [-123450, 5, 700, 9]))
        with self.assertRaisesRegex(ValueError, "of column 3 isn't of i64"):
            parse_table(TEXT, LEDGER, ";", out={**out, "amount": array("i", [9] * 4)})

    def test_skipped_rows_with_threads_and_blocks(self):
        text, wanted = random_rows(4000)
        rows = text.splitlines(True)
        for at in (3999, 2000, 1, 0):
            rows.insert(at, b"7;x;1.00\n" if at % 2 else b"7;x;1,005\n")
        text = b"".join(rows)
        with tempfile.NamedTemporaryFile() as file:
            file.write(text)
            file.flush()
            for threads in (1, 3):
                bad, more = [], []
                table = parse_table(text, LEDGER, ";", threads=threads, on_error="skip", errors=bad)
                self.assertEqual((table["amount"].tolist(), table.bad_rows), (wanted, 4))
                again = read_table(file.name, LEDGER, ";", threads=threads, size=999,
                                   on_error="skip", errors=more)
                self.assertEqual((again["amount"].tolist(), again.bad_rows), (wanted, 4))
                self.assertEqual([it.kind for it in bad],
                                 ["InvalidDigit", "Empty", "InvalidDigit", "Empty"])
                self.assertEqual([it.place for it in bad], [it.place for it in more])

    def test_wrong_columns(self):
        with self.assertRaisesRegex(TypeError, "^format has to be None where the type is a Fixed"):
            parse_table("1,00", {"a": Column(EURO, Format())})
        for threads in (1, 2):
            with self.assertRaisesRegex(ValueError, "64 bits or fewer in a column, and not i128"):
                parse_table("1.00", {"a": Fixed("i128", places=2)}, threads=threads)
        for wrong in (Fixed, object(), 7, b"i64"):
            with self.assertRaises((TypeError, ValueError)):
                parse_table("1,00", {"a": wrong})

    @unittest.skipUnless(HAS_NUMPY, "NumPy isn't installed")
    def test_numpy_has_the_integers(self):
        table = parse_table(TEXT, LEDGER, ";")
        self.assertEqual((table.to_numpy()["amount"].dtype.name, table.to_numpy()["amount"].sum()),
                         ("int64", -122745))

    @unittest.skipUnless(HAS_PANDAS, "pandas isn't installed")
    def test_pandas_has_the_integers(self):
        column = Column(FEWER, may_miss=True)
        frame = parse_table("1.5,0.5\n,2\n", {"a": column, "b": FEWER}).to_pandas()
        self.assertEqual((str(frame["a"].dtype), str(frame["b"].dtype)), ("Int32", "int32"))
        self.assertEqual((int(frame["a"].sum()), int(frame["b"].sum())), (1500, 2500))


if __name__ == "__main__":
    unittest.main()
