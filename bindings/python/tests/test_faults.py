"""Tests of what an error of a table says: where it is, which cell, and what its message says."""

import copy
import io
import os
import pathlib
import pickle
import subprocess
import sys
import tempfile
import unittest

from jadvolni import Column, ParseError, Text, iter_table, line_column, parse_table, read_table

BANK = b"date,amount\n1,5\n2,6\n3,7\n4,12x5\n"
COLUMNS = {"date": "u8", "amount": "i64"}


def fault_of(call, *words, **given):
    """What a call raises."""
    try:
        call(*words, **given)
    except ParseError as error:
        return error
    raise AssertionError("nothing was raised")


class Attributes(unittest.TestCase):
    """What an error has."""

    def told(self, text, columns, wanted, **given):
        """A text has a fault with these attributes, read at once, by blocks and in threads."""
        def by_blocks(**more):
            for _ in iter_table(io.BytesIO(text), columns, **given, **more):
                pass

        for call in (
            lambda: parse_table(text, columns, **given),
            lambda: parse_table(text, columns, threads=3, **given),
            lambda: read_table(io.BytesIO(text), columns, size=1, **given),
            lambda: read_table(io.BytesIO(text), columns, size=5, threads=4, **given),
            lambda: by_blocks(size=50, rows=1), lambda: by_blocks(size=50, threads=2),
        ):
            error = fault_of(call)
            self.assertEqual({name: getattr(error, name) for name in wanted}, wanted)
        return error

    def test_a_cell(self):
        error = self.told(BANK, COLUMNS, {
            "kind": "InvalidDigit", "row": 3, "line": 4, "column": 1, "name": "amount",
            "place": 28, "row_start": 24, "row_stop": 31, "text": b"12x5", "field": None,
        }, header=True)
        said = 'line 5, "amount": "12x5": invalid digit at byte 2 of the cell'
        self.assertEqual(str(error), said)

    def test_lines_as_an_editor_counts(self):
        text = b'\xef\xbb\xbfid,"no\nte",n\r\n\r\n1,"a\nb\nc",2\r\n\r\n2,"d\n",x\r\n3,,4\r\n'
        error = self.told(text, {"n": "u8", "id": "u8"}, {
            "row": 1, "line": 8, "column": 2, "name": "n", "text": b"x",
            "place": text.index(b"x"), "row_start": text.index(b'2,"d'),
            "row_stop": text.index(b"3,,4"),
        }, header=True, has_returns=True, has_quotes=True, skips_empty_rows=True)
        self.assertEqual(line_column(text, error.place), (8, 2))
        self.assertEqual(str(error), 'line 9, "n": "x": invalid digit at byte 0 of the cell')

    def test_a_row_stops_before_empty_ones(self):
        """Those that are skipped may be in the next block."""
        self.told(b"\n\n1\nx\n\n\n\n2\n", {"a": "u8"}, {
            "row": 1, "line": 3, "place": 4, "row_start": 4, "row_stop": 6,
        }, skips_empty_rows=True)

    def test_records(self):
        columns, widths = {"a": "u8", "b": "u8"}, [2, 1]
        error = self.told(b"011022x33", columns, {
            "row": 2, "line": 0, "column": 0, "name": "a", "place": 6, "row_start": 6,
            "row_stop": 9, "text": b"x3",
        }, widths=widths, is_records=True)
        self.assertEqual(str(error), 'row 3, "a": "x3": invalid digit at byte 0 of the cell')
        error = self.told(b"0110\n2", columns, {
            "row": 1, "line": 0, "column": 0, "place": 4, "text": b"0\n",
        }, widths=widths, is_records=True)
        self.assertEqual(str(error), r'row 2, "a": "0\n": invalid digit at byte 1 of the cell')
        self.told(b"011\n\n", {"a": None, "b": "u8"}, {
            "row": 1, "line": 2, "column": 1, "place": 5, "text": b"",
        }, widths=widths, is_records=True)

    def test_widths(self):
        columns, widths = {"a": "u8", "b": "u8"}, [2, 3]
        for text, row, column, place, shown, message in (
            (b"01002\n1x003\n", 1, 0, 7, b"1x",
             'line 2, "a": "1x": invalid digit at byte 1 of the cell'),
            (b"01999\n", 0, 1, 4, b"999", 'line 1, "b": "999": overflow at byte 2 of the cell'),
            (b"010\n", 0, 1, 3, b"", 'line 1: too few cells, none for "b"; the row has 3 of the 5 '
             "bytes of its widths: pad it if its last blanks were trimmed"),
            (b"01002xyz\n", 0, 2, 5, b"xyz", 'line 1, column 3: "xyz": too many cells'),
        ):
            error = self.told(text, columns, {
                "row": row, "column": column, "place": place, "text": shown,
            }, widths=widths)
            self.assertEqual(str(error), message)

    def test_empty_rows(self):
        """The message names the option that skips them."""
        hint = "; the row is empty: skips_empty_rows may have to be True"
        texts, widths = {"a": Text(), "b": None}, {"widths": [2, 3]}
        for text, columns, given, message in (
            (b"x,1\n\n", texts, {}, 'too few cells, none for "b"'),
            (b"x,1\n\nx,1\n", texts, {}, 'too few cells, none for "b"'),
            (b"x,1\r\n\r\n", texts, {"allows_returns": True}, 'too few cells, none for "b"'),
            (b"x,1\r\n\n", texts, {"has_returns": True}, 'too few cells, none for "b"'),
            (b'x,1\n\n"x",1', texts, {"has_quotes": True}, 'too few cells, none for "b"'),
            (b"010\r\n\n", {"a": Text()}, {"has_returns": True}, "missing carriage return"),
            (b"01002\n\n", COLUMNS, widths, 'too few cells, none for "date"'),
            (b"01002\r\n\r\n", COLUMNS, {"has_returns": True, **widths},
             'too few cells, none for "date"'),
        ):
            with self.subTest(text=text):
                error = self.told(text, columns, {"row": 1, "line": 1}, **given)
                self.assertEqual(str(error), f"line 2: {message}{hint}")
                parse_table(text, columns, skips_empty_rows=True, **given)
        error = self.told(b"1,2\n\n\n", COLUMNS, {"row": 1, "row_start": 4, "row_stop": 5})
        self.assertEqual(str(error),
                         f'line 2, "date": "": missing digit at byte 0 of the cell{hint}')
        for text in b"1,2\n\r\n", b"1,2\n \n", b"1,2\n\r":
            self.assertNotIn("empty", str(fault_of(parse_table, text, COLUMNS)))
        said = str(fault_of(parse_table, b"\r", COLUMNS, has_returns=True))
        self.assertEqual(said, r'line 1, "date": "\r": invalid digit at byte 0 of the cell')

    def test_rows_that_end_before_their_widths(self):
        """The message says how many bytes are there, and what may have to be done."""
        columns, widths = {"a": Text(), "b": Text()}, [3, 4]
        trimmed = ": pad it if its last blanks were trimmed"
        for text, given, name, size, more in (
            (b"abcdefg\nab\n", {}, "a", 2, trimmed),
            (b"abcdefg\nabcdef", {}, "b", 6, trimmed),
            (b"abcdefg\nab \r\n", {"allows_returns": True}, "b", 3, trimmed),
            (b"abcdefg\r\nab\r\n", {"has_returns": True}, "a", 2, trimmed),
            (b"abcdefg\nab\r\n", {}, "b", 3, trimmed),
            (b'abcdefg\n"a"\n', {"has_quotes": True}, "b", 3, trimmed),
            (b'abcdefg\nabc"\n', {"has_quotes": True}, "b", 5, trimmed),
            (b"abcdefgab", {"is_records": True}, "a", 2, ""),
            (b"abcdefgab\r\n", {"is_records": True, "has_returns": True}, "b", 4, ""),
        ):
            with self.subTest(text=text):
                error = self.told(text, columns, {"row": 1, "name": name}, widths=widths, **given)
                where = "row 2" if "is_records" in given else f"line {error.line + 1}"
                self.assertEqual(str(error), f'{where}: too few cells, none for "{name}"; the row '
                                             f"has {size} of the 7 bytes of its widths{more}")
        for end in b"\n", b"\r\n":
            error = self.told(b"abcdefg" + end, columns, {"row": 1, "column": 0}, widths=widths,
                              is_records=True, skips_empty_rows=True)
            self.assertEqual(str(error), 'row 2: too few cells, none for "a"; the row is only a '
                                         "line end, and records have none")
        numbers = {"a": "u8", "b": None}
        error = self.told(b"12a\n", numbers, {"row": 1}, widths=[1, 2], is_records=True)
        self.assertEqual(str(error), r'row 2, "a": "\n": invalid digit at byte 0 of the cell; the '
                                     "row is only a line end, and records have none")
        error = self.told(b"1\n", {"a": "u8"}, {"row": 1}, widths=[1], is_records=True)
        self.assertEqual(str(error), r'row 2, "a": "\n": invalid digit at byte 0 of the cell')
        huge = str(fault_of(parse_table, b"ab", columns, widths=[1, sys.maxsize]))
        self.assertIn(f"the row has 2 of the {2**63} bytes", huge)
        compressed = str(fault_of(parse_table, b"\x1f\x8b", columns, widths=widths))
        self.assertNotIn("bytes of its widths", compressed)

    def test_what_is_wrong_with_rows(self):
        for text, given, column, name, shown, message in (
            (b"1,2\n3\n", {}, 1, "amount", b"", 'line 2: too few cells, none for "amount"'),
            (b"1,2\n3,4,5\n", {}, 2, None, b"5", 'line 2, column 3: "5": too many cells'),
            (b"1,2\n3,4,\n", {}, 2, None, b"", 'line 2, column 3: "": too many cells'),
            (b"1,2\r\n3,4\n", {"has_returns": True}, 2, None, b"",
             "line 2: missing carriage return"),
            (b'1,2\n"3,4\n', {"has_quotes": True}, 0, "date", b'"3,4\n',
             r'line 2, "date": "\"3,4\n": misplaced quote at byte 0 of the cell'),
            (b'1,2\n"3",4"5\n', {"has_quotes": True}, 1, "amount", b'4"5\n',
             r'line 2, "amount": "4\"5\n": misplaced quote at byte 1 of the cell'),
            (b'1,2\n"3,4"\n', {"has_quotes": True}, 0, "date", b'"3,4"',
             r'line 2, "date": "\"3,4\"": invalid digit at byte 2 of the cell'),
            (b"1,2\n,4", {}, 0, "date", b"", 'line 2, "date": "": missing digit at byte 0 of the'
             ' cell'),
        ):
            with self.subTest(text=text):
                error = self.told(text, COLUMNS, {
                    "row": 1, "line": 1, "column": column, "name": name, "text": shown}, **given)
                self.assertEqual(str(error), message)

    def test_what_a_message_shows(self):
        long = b"9" * 39 + "ä".encode() + b"9" * 99
        for cell, shown in (
            (b"\0", r'"\x00"'), (b"\xff\xc3", r'"\xff\xc3"'), ("ä€".encode(), '"ä€"'),
            (b'"\\', r'"\"\\"'), (b"\x1b[31m\x7f\t", r'"\x1b[31m\x7f\t"'),
            ("\u202e\ufeff".encode(), r'"\u202e\ufeff"'),
            (b"x" * 40, f'"{"x" * 40}"'), (b"x" * 41, f'"{"x" * 40}"..'),
            (long, f'"{"9" * 39}"..'),
        ):
            error = fault_of(parse_table, b"1;" + cell + b"\n", {"a": "u8", "b": "u8"}, ";")
            self.assertTrue(str(error).startswith(f'line 1, "b": {shown}: '), str(error))
            self.assertEqual(error.text, cell[:40])
        error = fault_of(parse_table, "x", {'a"\n\udcff\ud800': "u8"})
        self.assertTrue(str(error).startswith(r'line 1, "a\"\n\xff\ud800": "x": '), str(error))
        for name, shown in ("n" * 40, f'"{"n" * 40}"'), ("n" * 41, f'"{"n" * 40}"..'):
            error = fault_of(parse_table, f"{name}\nx", {name: "u8"}, header=True)
            self.assertTrue(str(error).startswith(f'line 2, {shown}: "x": '), str(error))
        for name in 7, None, ("a",), b"a":
            error = fault_of(parse_table, "1,x", {"": None, name: "u8"})
            self.assertEqual(error.name, name)
            self.assertTrue(str(error).startswith('line 1, column 2: "x": '), str(error))

    def test_files(self):
        with tempfile.TemporaryDirectory() as folder:
            path = pathlib.Path(folder, "bank.csv")
            path.write_bytes(BANK)
            said = f'{path}, line 5, "amount": "12x5": invalid digit at byte 2 of the cell'
            for file in path, str(path):
                for given in {}, {"mmap": True}, {"threads": 2}, {"size": 3}:
                    error = fault_of(read_table, file, COLUMNS, header=True, **given)
                    self.assertEqual(str(error), said)
            with open(path, "rb") as file:
                error = fault_of(lambda: list(iter_table(file, COLUMNS, header=True)))
                self.assertEqual(str(error), said)
            first, second = os.pipe()
            os.write(second, BANK)
            os.close(second)
            with open(first, "rb") as file:  # (its name is a number)
                error = fault_of(read_table, file, COLUMNS, header=True)
            self.assertEqual(str(error), said.removeprefix(f"{path}, "))
            self.assertEqual((error.row, error.line, error.place), (3, 4, 28))
            strange = pathlib.Path(os.fsdecode(os.fsencode(folder) + b"/\xff"))
            strange.write_bytes(b"x")
            self.assertIn("\\xff, line 1", str(fault_of(read_table, strange, {"a": "u8"})))

    def test_a_shell_shows_it(self):
        code = "import jadvolni, sys\n" \
               "jadvolni.read_table(sys.argv[1], {'amount': 'i64'}, header=True)"
        with tempfile.TemporaryDirectory() as folder:
            pathlib.Path(folder, "bank.csv").write_bytes(BANK)
            run = subprocess.run([sys.executable, "-c", code, "bank.csv"], cwd=folder,
                                 capture_output=True, text=True, timeout=60)
        self.assertEqual(run.stderr.splitlines()[-1], "jadvolni.ParseError: bank.csv, line 5, "
                         '"amount": "12x5": invalid digit at byte 2 of the cell')

    def test_copies_have_all(self):
        error = fault_of(parse_table, BANK, COLUMNS, header=True)
        for other in pickle.loads(pickle.dumps(error)), copy.copy(error), copy.deepcopy(error):
            self.assertEqual((str(other), vars(other)), (str(error), vars(error)))

    def test_columns_that_are_not_read(self):
        error = fault_of(parse_table, b'a,b,c\n1,"x"y,2\n', {"c": "u8"}, header=True,
                         has_quotes=True)
        self.assertEqual((error.column, error.name), (1, "b"))
        column = Column("u8", may_miss=True)
        error = fault_of(parse_table, b"NA\n \nx\n", {"a": column}, missing="NA")
        self.assertEqual((error.row, error.text), (1, b" "))


class Lines(unittest.TestCase):
    """Line and column of a place."""

    def test_places(self):
        for text in b"ab\n\nc", "ab\n\nc", bytearray(b"ab\n\nc"), memoryview(b"ab\n\nc"):
            found = [line_column(text, place) for place in range(7)]
            self.assertEqual(found, [(0, 0), (0, 1), (0, 2), (1, 0), (2, 0), (2, 1), (2, 1)])
        self.assertEqual(line_column("é\n\0", 4), (1, 1))
        self.assertEqual(line_column(b"", 0), (0, 0))
        self.assertEqual(line_column(text=b"\n", place=2**64 - 1), (1, 0))
        self.assertEqual(line_column(b"\na", 2**64), (1, 1))

    def test_any_integer(self):
        class Place:
            def __init__(self, place):
                self.place = place

            def __index__(self):
                return self.place.pop()

        self.assertEqual(line_column(b"a\nb", Place([2])), (1, 0))
        self.assertRaises(IndexError, line_column, b"", Place([]))
        for place, told in (-1, "0 or more, and not -1"), ("1", "an integer, and not str"):
            with self.assertRaisesRegex((TypeError, ValueError), f"^place has to be {told}$"):
                line_column(b"", place)
        with self.assertRaisesRegex(ValueError, "limit"):
            line_column(b"", -10**5000)  # (which Python doesn't write)

    def test_wrong_arguments(self):
        for words, named, kind in (
            ((b"",), {}, TypeError), ((), {}, TypeError), ((b"", "1"), {}, TypeError),
            ((b"", 1.0), {}, TypeError), ((7, 1), {}, TypeError), ((b"", -1), {}, ValueError),
            ((b"", -(2**64)), {}, ValueError), ((b"", 1), {"at": 2}, TypeError),
        ):
            with self.subTest(words=words):
                self.assertRaises(kind, line_column, *words, **named)


if __name__ == "__main__":
    unittest.main()
