"""Tests of tables: from texts, files and blocks, beside a reading by split, and misused."""

import importlib.util
import io
import os
import pathlib
import random
import subprocess
import sys
import tempfile
import unittest
from array import array
from unittest import mock

from jadvolni import (Column, Fixed, Format, FormatError, ParseError, Sparse, Text, iter_table,
                      parse_table, read_table)

LEDGER = {"day": "u16", "what": None, "cents": "i64"}
TEXT = b"1;rent;-80000\r\n365;;7\r\n"
HAS_NUMPY = importlib.util.find_spec("numpy") is not None


def lists(table):
    """The columns of a table as lists, with None for each missing number."""
    return {name: sparse_list(values) if isinstance(values, Sparse) else values.tolist()
            for name, values in table.items()}


def sparse_list(values):
    """The numbers of a Sparse, whose missing ones have to be 0."""
    pairs = list(zip(values.numbers.tolist(), values.present, strict=True))
    assert all(present or number == 0 for number, present in pairs)
    found = values.tolist()
    assert found == [number if present else None for number, present in pairs]
    return found


def rows_of(file, **given):
    """All rows of a file, by its tables."""
    found = {"day": [], "cents": []}
    for table in iter_table(file, LEDGER, ";", True, **given):
        for name, values in table.items():
            found[name] += values.tolist()
    return found


class Broken(io.BytesIO):
    """A file that gives few bytes a call, and then fails."""

    def read(self, size=-1):
        if self.tell() > 20:
            raise OSError("no disk")
        return super().read(min(size, 7))


class Tables(unittest.TestCase):
    """Tables of texts, files and blocks."""

    def fails(self, text, kind, row, column, place, columns=None, **given):
        """A text has this first wrong cell, read at once and in blocks of each size."""
        columns = columns or LEDGER
        with self.assertRaises(ParseError) as whole:
            parse_table(text, columns, ";", **given)
        told = whole.exception
        self.assertEqual((told.kind, told.row, told.column, told.place), (kind, row, column, place))
        for size in range(1, len(text) + 2):
            with self.assertRaises(ValueError) as cut:
                for _ in iter_table(io.BytesIO(text), columns, ";", rows=2, size=size, **given):
                    pass
            if isinstance(cut.exception, ParseError):
                self.assertEqual((str(cut.exception), vars(cut.exception)), (str(told), vars(told)))
            else:
                self.assertRegex(str(cut.exception), f"the row at byte .* more than {size} ")

    def test_the_first_wrong_cell(self):
        self.fails(b"1;a;2\n70000;;3\n", "Overflow", 1, 0, 10)
        self.fails(b"1;a;2\n7;;3x\n", "InvalidDigit", 1, 2, 10)
        self.fails(b"1;a;2\n7;\n", "TooFewCells", 1, 2, 8)
        self.fails(b"1;a;2\n7;b;8;\n", "TooManyCells", 1, 3, 12)
        self.fails(b"1;a;2\r\n7;b;8\n", "MissingReturn", 1, 3, 12, has_returns=True)
        self.fails(b"1;a;2\n\n", "Empty", 1, 0, 6)

    def test_texts_and_files(self):
        wanted = {"day": [1, 365], "cents": [-80000, 7]}
        self.assertEqual(lists(parse_table(TEXT.decode(), LEDGER, ";", True)), wanted)
        self.assertEqual(lists(read_table(io.BytesIO(TEXT), LEDGER, ";", True)), wanted)
        with tempfile.TemporaryDirectory() as folder:
            path = pathlib.Path(folder, "ledger.csv")
            for text, rows in ((TEXT, wanted), (b"", {"day": [], "cents": []})):
                path.write_bytes(text)
                self.assertEqual(lists(read_table(path, LEDGER, ";", True)), rows)
                self.assertEqual(lists(read_table(str(path), LEDGER, ";", True)), rows)
        for size in range(14, 30):
            for rows in range(1, 4):
                self.assertEqual(rows_of(io.BytesIO(TEXT), rows=rows, size=size), wanted)

    def test_options(self):
        text = b'"1";"a;\n";" 2 "\n\n 3;;\t4\n'
        given = {"has_quotes": True, "allows_blanks": True, "skips_empty_rows": True}
        wanted = {"day": [1, 3], "cents": [2, 4]}
        self.assertEqual(lists(parse_table(text, LEDGER, ";", **given)), wanted)
        for size in range(15, 30):
            found = {"day": [], "cents": []}
            for table in iter_table(io.BytesIO(text), LEDGER, ";", size=size, **given):
                for name, values in table.items():
                    found[name] += values.tolist()
            self.assertEqual(found, wanted)
        self.fails(b'1;a;2\n7;b"c;8\n', "MisplacedQuote", 1, 1, 9, has_quotes=True)

    def test_a_pipe(self):
        first, second = os.pipe()
        os.write(second, TEXT)
        os.close(second)
        self.assertEqual(lists(read_table(f"/dev/fd/{first}", LEDGER, ";", True))["day"], [1, 365])
        os.close(first)

    def test_a_file_without_a_size(self):
        path = pathlib.Path("/proc/sys/kernel/pid_max")
        wanted = {"a": [int(path.read_text())]}
        self.assertEqual(lists(read_table(path, {"a": "u32"})), wanted)

    def test_a_file_that_can_not_be_mapped(self):
        with tempfile.NamedTemporaryFile() as file, mock.patch("mmap.mmap", side_effect=OSError):
            file.write(b"n\n7\n")
            file.seek(2)
            self.assertEqual(lists(read_table(file, {"a": "u8"})), {"a": [7]})
            with self.assertRaises(ParseError) as told:
                read_table(file.name, {"a": "u8"}, mmap=True)
        self.assertIsNone(told.exception.__context__)

    def test_missing_numbers(self):
        columns = {"a": Column("i16", may_miss=True), "b": None, "c": "u8",
                   "d": Column("u32", Format(mantissa_radix=16), True)}
        cells = [(k if k % 3 else None, k, 0xF0 + k if k % 5 else None) for k in range(20)]
        wanted = dict(zip("acd", map(list, zip(*cells))))
        for mark in ("", "NA", b"-"):
            told = mark if isinstance(mark, str) else mark.decode()
            shown = [(told if a is None else a, c, told if d is None else f"{d:x}")
                     for a, c, d in cells]
            text = "".join(f"{a},x,{c},{d}\n" for a, c, d in shown).encode()
            table = parse_table(text, columns, missing=mark)
            self.assertEqual(lists(table), wanted)
            bits = [sum((cells[k][0] is not None) << k % 8 for k in range(n, min(n + 8, 20)))
                    for n in (0, 8, 16)]
            self.assertEqual(table["a"].bits.tolist(), bits)
            for size in 13, 40, 999:
                parts = [lists(it) for it in iter_table(io.BytesIO(text), columns, missing=mark,
                                                        rows=3, size=size)]
                self.assertEqual({name: sum((it[name] for it in parts), []) for name in wanted},
                                 wanted)
        self.fails(b"1;NA\nNA;NA\n", "InvalidDigit", 1, 0, 5, missing="NA",
                   columns={"a": "u8", "b": Column("u8", may_miss=True)})
        self.fails(b"1;\n;2\n", "Empty", 1, 0, 3, columns={"a": "u8", "b": columns["a"]})

    def test_progress(self):
        for size in 14, 20, 99:
            told = []
            rows_of(io.BytesIO(TEXT), size=size, progress=told.append)
            self.assertEqual((sum(told), max(told)), (len(TEXT), min(size, len(TEXT))))
        tables = iter_table(io.BytesIO(TEXT), LEDGER, ";", True, size=15, progress=lambda: None)
        self.assertEqual(lists(next(tables))["day"], [1])
        self.assertRaises(TypeError, next, tables)
        self.assertEqual(list(tables), [])
        for call in read_table, iter_table:
            file = io.BytesIO(TEXT)
            with self.assertRaisesRegex(TypeError, "^progress has to be a function or None, and "):
                next(iter(call(file, LEDGER, ";", True, progress=True)))
            self.assertEqual(file.tell(), 0)

    def test_types_and_formats(self):
        hexadecimal = Format(mantissa_radix=16)
        for bits in (8, 16, 32, 64):
            half = 2**(bits - 1)
            for letter, least, greatest in (("u", 0, 2 * half - 1), ("i", -half, half - 1)):
                kind = f"{letter}{bits}"
                columns = {"a": kind, "b": Column(kind, hexadecimal)}
                table = parse_table(f"{least},{greatest:x}", columns)
                self.assertEqual(lists(table), {"a": [least], "b": [greatest]})
                self.assertEqual(memoryview(table["a"]).itemsize, bits // 8)

    def test_arrays_of_the_caller(self):
        out = {"day": array("H", [9] * 3), "cents": array("q", [9] * 3)}
        wanted = {"day": [1, 365], "cents": [-80000, 7]}
        self.assertEqual(lists(parse_table(TEXT, LEDGER, ";", True, out=out)), wanted)
        with self.assertRaises(ParseError):
            parse_table(b"5;;6\n7;;x\n", LEDGER, ";", out=out)
        self.assertEqual(lists(out), {"day": [5, 7, 9], "cents": [6, 7, 9]})
        for code, count in ("H", 1), ("h", 2), ("I", 2), ("B", 4):
            out["day"] = array(code, [9] * count)
            self.assertRaises(ValueError, parse_table, TEXT, LEDGER, ";", True, out=out)
        wanted = "out has to have an array to write to for the column 'day'"
        for given in (None, 7, "12", b"1234", [0, 0], (array("H", [0, 0]),), (1, 2, 3),
                      memoryview(array("H", [0] * 4))[::2]):
            out["day"] = given
            with self.assertRaisesRegex(ValueError, wanted):
                parse_table(TEXT, LEDGER, ";", True, out=out)
        with self.assertRaisesRegex(ValueError, wanted):
            parse_table(TEXT, LEDGER, ";", True, out={})
        with memoryview(bytearray(17)) as view, view[1:].cast("q") as askew:
            for columns, text in ({"a": "i64"}, b"1\n2\n"), ({"x": None, "a": "i64"}, b",1\n,2\n"):
                told = f"out has to have aligned arrays .* of column {len(columns)} isn't of i64$"
                with self.assertRaisesRegex(ValueError, told):
                    parse_table(text, columns, out={"a": askew})
            with view[1:1].cast("q") as empty:  # (as an array without items has it)
                parse_table(b"", {"a": "i64"}, out={"a": empty})

    def test_bits_of_the_caller(self):
        columns = {"a": Column("u8", may_miss=True)}
        numbers, bits = array("B", [9] * 9), bytearray(b"\xff" * 2)
        table = parse_table(b"1\n\n" * 4, columns, out={"a": (numbers, bits)})
        self.assertEqual(lists(table), {"a": [1, None] * 4})
        self.assertEqual((numbers.tolist(), bytes(bits)), ([1, 0] * 4 + [9], b"\x55\xff"))
        for given in (numbers, (numbers, bits[:0]), (numbers[:1], bits), (numbers, numbers),
                      (numbers, array("H", [9])), (numbers, b"\0\0"), (numbers, None), (numbers,)):
            with self.assertRaisesRegex(ValueError, "out has to have "):
                parse_table(b"1\n2\n", columns, out={"a": given})
        with self.assertRaisesRegex(ValueError, "out has to have an array to write to for .* 'a'"):
            parse_table(b"1", {"a": "u8"}, out={"a": (numbers, bits)})
        self.assertEqual((numbers.tolist(), bytes(bits)), ([1, 0] * 4 + [9], b"\x55\xff"))

    @unittest.skipIf(sys.version_info < (3, 12), "Python has no __buffer__")
    def test_arrays_that_are_buffers_alone(self):
        class Numbers:
            """An array that can be neither indexed nor counted."""

            def __init__(self, values):
                self.values = values

            def __buffer__(self, flags):
                return memoryview(self.values)

        for count in 2, 3:
            numbers, bits = array("q", [9] * count), bytearray(b"\xff")
            out = {"a": Numbers(numbers), "b": (Numbers(array("B", [9] * count)), Numbers(bits))}
            table = parse_table(b"-1,\n2,3\n", {"a": "i64", "b": Column("u8", may_miss=True)},
                                out=out)
            self.assertEqual(lists(table), {"a": [-1, 2], "b": [None, 3]})
            self.assertEqual((numbers.tolist()[:2], bytes(bits)), ([-1, 2], b"\xfe"))

    def test_memory_that_is_shared(self):
        columns, whole = {"a": "u8", "b": "u8"}, bytearray(b"1,2\n3,4\n")
        with memoryview(whole) as view:
            for text, missing, first, second in (
                (b"1,2\n3,4", b"", view[:2], view[:2]),
                (b"1,2\n3,4", b"", view[1:3], view[2:4]),
                (b"1,2\n3,4", view[4:5], view[3:5], view[5:]),
                (view, b"", view[6:], bytearray(2)),
            ):
                with self.assertRaisesRegex(ValueError, "memory of its own"):
                    parse_table(text, columns, missing=missing, out={"a": first, "b": second})
            parse_table(view[:8], columns, out={"a": bytearray(2), "b": bytearray(2)})
            parse_table(b"1,2\n3,4", columns, out={"a": view[:2], "b": view[2:4]})
        self.assertEqual(bytes(whole), b"\1\3\2\4" b"3,4\n")

    def test_wrong_arguments(self):
        for columns in ({"a": "u128"}, {"a": "u7"}, {"a": "f64"}):
            self.assertRaises(ValueError, parse_table, b"1", columns)
        self.assertRaises(TypeError, parse_table, b"1", {"a": 7})
        kinds = " Its type may also be jadvolni.Text() or a jadvolni.Fixed."
        named = " may_miss comes after it, or by its name."
        for wrong, note in ((Text, kinds), ("text", kinds), (7, kinds),
                            (Column(Text(), Format()), ""), (Column("u8", True), named),
                            (Column("u8", "hex"), ""), (Column(Fixed(places=2), Format()), "")):
            for more in {}, {"out": {"a": bytearray(2), "b": bytearray(2)}}:
                with self.assertRaises((TypeError, ValueError)) as caught:
                    parse_table(b"1,2", {"a": "u8", "b": wrong}, **more)
                self.assertEqual(caught.exception.__notes__, [f"The column is 'b'.{note}"])
        self.assertRaises(TypeError, parse_table, 7, {"a": "u8"})
        self.assertRaises(TypeError, parse_table, b"1", {"a": ("u8", None)})
        self.assertRaises(TypeError, parse_table, b"1", {"a": Column("u8", "hex")})
        self.assertRaises(TypeError, parse_table, b"1", {"a": "u8"}, missing=None)
        self.assertRaises(ValueError, parse_table, b"1", {"a": "u8"}, b"ab")
        for given, message in (
            ({"rows": 0}, "rows has to be 1 or more, and not 0"),
            ({"size": -1}, "size has to be 1 or more, and not -1"),
            ({"rows": "1"}, "rows has to be an integer, and not str"),
            ({"size": None}, "size has to be an integer, and not NoneType"),
        ):
            with self.assertRaisesRegex((ValueError, TypeError), message):
                next(iter_table(io.BytesIO(b"1"), {"a": "u8"}, **given))
        for call in (read_table, lambda *it, **more: next(iter_table(*it, **more))):
            table = call(io.BytesIO(b"1"), {"a": "u8"}, size=2**70)
            self.assertEqual(table["a"].tolist(), [1])
        for call in (parse_table, lambda text, *it: next(iter_table(io.BytesIO(text), *it))):
            for columns in (["a", "b"], "ab", None):
                with self.assertRaisesRegex(TypeError, "columns has to be a dict, and not "):
                    call(b"1,2", columns)
        with self.assertRaisesRegex(TypeError, "out has to be a dict or None, and not list"):
            parse_table(b"1", {"a": "u8"}, out=[array("B", [0])])
        for file in ("table.csv", pathlib.Path("table.csv"), 7):
            with self.assertRaisesRegex(TypeError, 'file has to be one opened by "rb", and not '):
                next(iter_table(file, {"a": "u8"}))
        for text in b"1\n", bytearray(b"1\n"), memoryview(b"1\n"):
            with self.assertRaisesRegex(TypeError, ": parse_table and parse_column read what is"):
                read_table(text, {"a": "u8"})
        self.assertRaises(TypeError, next, iter_table(io.StringIO("1"), {"a": "u8"}))
        self.assertRaises(FileNotFoundError, read_table, "no/such/file", LEDGER)
        self.assertEqual(parse_table(b"a\nb", {"a": None}), {})

    def test_a_file_that_fails(self):
        seen = []
        with self.assertRaises(OSError):
            for table in iter_table(Broken(TEXT * 3), LEDGER, ";", True):
                seen += table["day"].tolist()
        self.assertEqual(seen, [1])

    def test_a_format_of_a_later_version(self):
        class Reserved:
            _fields = b"\x0a" + bytes(30) + b"\x01"

        with self.assertRaises(FormatError):
            parse_table(b"1", {"a": Column("u8", Reserved())})

    def test_random_tables_beside_split(self):
        chance = random.Random(1)
        columns, limits = {"a": "u16", "b": "u8", "c": "i32"}, (65535, 255, 2**31)
        for _ in range(300):
            rows = [[chance.randrange(chance.choice((70000, 256, 256))) for _ in range(3)]
                    for _ in range(chance.randrange(9))]
            text = "".join(",".join(map(str, row)) + "\n" for row in rows).encode()
            wrong = [(k, j) for k, row in enumerate(rows) for j in range(3) if row[j] > limits[j]]
            if not wrong:
                read = [list(row) for row in zip(*lists(parse_table(text, columns)).values())]
                self.assertEqual(read, rows)
                continue
            with self.assertRaises(ParseError) as caught:
                parse_table(text, columns)
            self.assertEqual((caught.exception.row, caught.exception.column), wrong[0])

    def test_memory_is_given_back(self):
        columns = {**LEDGER, "cents": Column("i64", may_miss=True)}
        day, cents, bits = array("H", [9] * 2), array("q", [9] * 2), bytearray(1)
        kept = day, cents, bits, TEXT
        before = [sys.getrefcount(it) for it in kept]
        for text, given in [(TEXT, bits), (b"1;2", bits), (TEXT, cents), (7, bits)] * 200:
            try:
                parse_table(text, columns, ";", True, out={"day": day, "cents": (cents, given)})
            except (ParseError, TypeError, ValueError):
                pass
        del text, given
        self.assertEqual([sys.getrefcount(it) for it in kept], before)
        day.append(7), cents.append(7), bits.append(7)  # (no buffer is kept)

    @unittest.skipUnless(HAS_NUMPY, "NumPy isn't installed")
    def test_arrays_of_numpy(self):
        import numpy

        table = parse_table(TEXT, LEDGER, ";", True)
        self.assertEqual((table["day"].dtype, table["cents"].dtype), (numpy.uint16, numpy.int64))
        out = {"day": numpy.zeros((2, 2), "u2")[:, 0], "cents": numpy.zeros(2, "i8")}
        self.assertRaises(ValueError, parse_table, TEXT, LEDGER, ";", True, out=out)
        out["day"] = numpy.zeros(2, "u2")
        parse_table(TEXT, LEDGER, ";", True, out=out)
        self.assertEqual(lists(out), {"day": [1, 365], "cents": [-80000, 7]})

    def test_without_numpy(self):
        code = """
import sys
sys.modules['numpy'] = None
from jadvolni import Column, parse_table
table = parse_table('1,2\\n,3', {'a': Column('u8', may_miss=True), 'b': 'i16'})
print(table, table['a'].present)
"""
        said = subprocess.run([sys.executable, "-c", code], stdout=subprocess.PIPE, text=True,
                              check=True).stdout
        sparse = "Sparse(numbers=array('B', [1, 0]), bits=array('B', [1]))"
        self.assertEqual(said, f"{{'a': {sparse}, 'b': array('h', [2, 3])}} [True, False]\n")


if __name__ == "__main__":
    unittest.main()
