"""Tests of tables by widths, whose rows are lines or records: worked rows, and misuse."""

import io
import random
import sys
import unittest
from array import array

from jadvolni import Column, ParseError, Sparse, iter_table, parse_table, read_table

LEDGER = {"day": "u16", "what": None, "cents": Column("i64", may_miss=True)}
WIDTHS = [3, 4, 6]
BYTES = {"a": "u8", "b": None, "c": "i16"}


def lists(table):
    """The columns of a table as lists, with None for each missing number."""
    return {name: [it if there else None for it, there in zip(values.numbers, values.present)]
            if isinstance(values, Sparse) else values.tolist() for name, values in table.items()}


def answer(read):
    """The columns that a call gives, or the first wrong cell."""
    try:
        return lists(read())
    except ParseError as error:
        return error.kind, error.row, error.column, error.place


def joined(tables, columns):
    """The columns of several tables as one."""
    found = {name: [] for name, kind in columns.items() if kind is not None}
    for table in map(lists, tables):
        for name, values in table.items():
            found[name] += values
    return found


class Widths(unittest.TestCase):
    """Tables by widths."""

    def answers(self, text, wanted, columns, widths, **given):
        """A text has this answer, read at once, in threads and in blocks of each size."""
        given["widths"] = widths
        found = answer(lambda: parse_table(text, columns, **given))
        self.assertEqual(found, wanted)
        for threads in (2, 3, 16):
            found = answer(lambda: parse_table(text, columns, threads=threads, **given))
            self.assertEqual(found, wanted)
        for size in range(max(14, sum(widths) + 2), len(text) + 2):
            for rows in (1, 2, 99):
                file = io.BytesIO(text)
                try:
                    tables = iter_table(file, columns, rows=rows, size=size, **given)
                    found = joined(tables, columns)
                except ParseError as error:
                    found = error.kind, error.row, error.column, error.place
                self.assertEqual(found, wanted)

    def test_lines_and_records(self):
        wanted = {"day": [365, 36, 7], "cents": [-80000, 1250, None]}
        rows = [b"365rent-80000", b" 36\t;,\r  1250", b"7            "]
        for end, given in ((b"\n", {}), (b"\r\n", {"has_returns": True}),
                           (b"", {"is_records": True})):
            text = end.join(rows)
            for content in (text, text + end):
                self.answers(content, wanted, LEDGER, WIDTHS, allows_blanks=True, **given)

    def test_options(self):
        columns = {"a": None, "b": None, "c": Column("i8", may_miss=True)}
        given = {"has_quotes": True, "missing": "NA"}
        text = b'"12"NA\n"\n,"07\n""""01\n'
        self.answers(text, {"c": [None, 7, 1]}, columns, [4, 0, 2], **given)
        self.answers(text[:13] + b"\n\n", {"c": [None, 7]}, columns, [4, 0, 2],
                     skips_empty_rows=True, **given)
        self.answers(text.replace(b"\n", b""), ("MisplacedQuote", 1, 0, 8), columns, [4, 0, 2],
                     is_records=True, **given)
        self.answers(b'"7"8\n', {"a": [7], "c": [8]}, BYTES, [3, 0, 1], has_quotes=True)
        self.answers(b'7"88\n', ("MisplacedQuote", 0, 1, 1), BYTES, [1, 1, 2], has_quotes=True)

    def test_the_first_wrong_cell(self):
        for text, wanted, given in (
            (b"12x345\n12x34\n", ("TooFewCells", 1, 2, 12), {}),
            (b"12x345\n1\n", ("TooFewCells", 1, 0, 8), {}),
            (b"12x345\n\n", ("TooFewCells", 1, 0, 7), {}),
            (b"12x345\n12x3456\n", ("TooManyCells", 1, 3, 13), {}),
            (b"12x345\n12x3,5\n", ("InvalidDigit", 1, 2, 11), {}),
            (b"12x345\r\n12x345\n", ("MissingReturn", 1, 3, 14), {"has_returns": True}),
            (b"12x34512x34", ("TooFewCells", 1, 2, 11), {"is_records": True}),
            (b"12x3451", ("TooFewCells", 1, 0, 7), {"is_records": True}),
            (b"12x345\n2x345", ("InvalidDigit", 1, 0, 6), {"is_records": True}),
            (b"12x34599x999x9x999", ("InvalidDigit", 2, 0, 12), {"is_records": True}),
        ):
            with self.subTest(text=text):
                self.answers(text, wanted, BYTES, [2, 1, 3], **given)
        self.answers(b"12x345", ("InvalidDigit", 0, 2, 2), BYTES, [2, 0, 4])
        self.answers(b"12x345", ("Empty", 0, 0, 0), BYTES, [0, 3, 3])
        self.answers(b"12", ("TooManyCells", 0, 2, 0), {"a": None, "b": None}, [0, 0],
                     is_records=True)

    def test_widths_that_are_huge(self):
        for widths in ([2, 1, sys.maxsize], [2, sys.maxsize, sys.maxsize], [2, 1, 2**32]):
            column = 1 if widths[1] == sys.maxsize else 2
            for is_records in (False, True):
                for threads in (1, 4):
                    with self.assertRaises(ParseError) as caught:
                        parse_table(b"12x345", BYTES, widths=widths, is_records=is_records,
                                    threads=threads)
                    fault = caught.exception
                    self.assertEqual((fault.kind, fault.row, fault.column, fault.place),
                                     ("TooFewCells", 0, column, 6))

    def test_no_text(self):
        for is_records in (False, True):
            self.answers(b"", {"a": [], "c": []}, BYTES, [2, 1, 3], is_records=is_records)

    def test_a_record_that_a_block_has_no_room_for(self):
        tables = iter_table(io.BytesIO(b"12x345" * 3), BYTES, widths=[2, 1, 12], is_records=True,
                            size=5)
        with self.assertRaisesRegex(ValueError, "the row at byte 0 has more than 5 bytes"):
            next(tables)

    def test_arrays_of_the_caller(self):
        out = {"a": array("B", [9] * 3), "c": array("h", [9] * 3)}
        given = {"widths": (2, 1, 3), "is_records": True, "out": out}
        self.assertEqual(lists(parse_table(b"12x34567y-12", BYTES, **given)),
                         {"a": [12, 67], "c": [345, -12]})
        with self.assertRaisesRegex(ValueError, "room for the 4 rows of the text in the column 'a"):
            parse_table(b"12x345" * 3 + b"1", BYTES, **given)
        self.assertEqual(lists(out), {"a": [12, 67, 9], "c": [345, -12, 9]})

    def test_random_records(self):
        chance = random.Random(1)
        for _ in range(200):
            widths = [chance.randrange(1, 4), chance.randrange(3), chance.randrange(1, 5)]
            rows = [(chance.randrange(min(256, 10**widths[0])), chance.randrange(10**widths[2]))
                    for _ in range(chance.randrange(30))]
            text = "".join(f"{a:{widths[0]}}{'x' * widths[1]}{c:0{widths[2]}}" for a, c in rows)
            wanted = {"a": [a for a, _ in rows], "c": [c for _, c in rows]}
            given = {"widths": widths, "is_records": True, "allows_blanks": True}
            for threads in (1, chance.randint(2, 9)):
                found = lists(parse_table(text, BYTES, threads=threads, **given))
                self.assertEqual(found, wanted)
            file = io.BytesIO(text.encode())
            self.assertEqual(lists(read_table(file, BYTES, **given)), wanted)

    def test_wrong_arguments(self):
        for given, error, message in (
            ({"widths": [2, 1, 3], "separator": ","}, ValueError, "separator has to be None"),
            ({"widths": [2, 1, 3], "separator": ""}, ValueError, "separator has to be None"),
            ({"is_records": True}, ValueError, "widths have to be there where is_records is true"),
            ({"widths": []}, ValueError, "widths have to be one for each of 3 columns, and not 0"),
            ({"widths": [2, 1]}, ValueError, "widths have to be one for each of 3 columns"),
            ({"widths": [2, 1, 3, 4]}, ValueError, "widths have to be one for each of 3 columns"),
            ({"widths": [2, -1, 3]}, ValueError, "a width has to be from 0 to 92.*, and not -1"),
            ({"widths": [2, 2**63, 3]}, ValueError, "a width has to be from 0 to 92.*, and not 92"),
            ({"widths": [2, 2**64, 3]}, ValueError, "a width has to be from 0 to"),
            ({"widths": [2, 10**5000, 3]}, ValueError, ""),
            ({"widths": [2, 1.0, 3]}, TypeError, "a width has to be an integer, and not float"),
            ({"widths": [2, None, 3]}, TypeError, "a width has to be an integer, and not None"),
            ({"widths": "213"}, TypeError, "a width has to be an integer, and not str"),
            ({"widths": 213}, TypeError, "widths has to be a list or None, and not int"),
        ):
            with self.subTest(given=given):
                with self.assertRaisesRegex(error, message):
                    parse_table(b"12x345", BYTES, **given)
                with self.assertRaisesRegex(error, message):
                    read_table(io.BytesIO(b"12x345"), BYTES, **given)
                with self.assertRaisesRegex(error, message):
                    next(iter_table(io.BytesIO(b"12x345"), BYTES, **given))
        with self.assertRaisesRegex(ValueError, "widths have to be one for each of 0 columns"):
            parse_table(b"", {}, widths=[])

    def test_memory_is_given_back(self):
        text, widths = b"12x345" * 9, [2, 1, 3]
        kept = text, widths
        before = [sys.getrefcount(it) for it in kept]
        for given in [text, text + b"x", 7] * 200:
            try:
                parse_table(given, BYTES, widths=widths, is_records=True)
            except (ParseError, TypeError):
                pass
        del given
        self.assertEqual([sys.getrefcount(it) for it in kept], before)


if __name__ == "__main__":
    unittest.main()
