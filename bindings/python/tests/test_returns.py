"""Tests of tables whose rows may end by a return and a line feed, each as it is."""

import io
import itertools
import unittest

from jadvolni import ParseError, iter_table, parse_table, read_table

TWO = {"a": "i64", "b": "i64"}


def lists(table):
    """The columns of a table as lists."""
    return [it.tolist() for it in table.values()]


class Returns(unittest.TestCase):
    """What `allows_returns` takes."""

    def test_rows_that_end_either_way(self):
        for ends in itertools.product((b"\n", b"\r\n"), repeat=3):
            text = b"".join(b"%d,-%d%s" % (k, k, end) for k, end in enumerate(ends))
            for size, threads in itertools.product((1, 4, 100), (1, 3)):
                wanted = [[0, 1, 2], [0, -1, -2]]
                given = {"allows_returns": True, "threads": threads}
                self.assertEqual(lists(parse_table(text, TWO, **given)), wanted)
                table = read_table(io.BytesIO(text), TWO, size=size, **given)
                self.assertEqual(lists(table), wanted)
                found = list(iter_table(io.BytesIO(text), TWO, size=max(size, 9), **given))
                self.assertEqual(sum((it["a"].tolist() for it in found), []), wanted[0])

    def test_a_header_that_ends_either_way(self):
        for end in (b"\n", b"\r\n"):
            for text in (b"a,b" + end + b"1,2\r\n3,4\n", b"\xef\xbb\xbfa,b" + end + b"1,2\n3,4"):
                table = parse_table(text, {"b": "u8"}, header=True, allows_returns=True)
                self.assertEqual(lists(table), [[2, 4]])
        with self.assertRaisesRegex(ValueError, r"it has 'a', 'b\\r'"):
            parse_table(b"a,b\r", {"b": "u8"}, header=True, allows_returns=True)

    def test_any_other_return_is_a_byte_of_its_cell(self):
        for text, row, place, cell in (
            (b"1,2\r", 0, 3, b"2\r"), (b"1,2\r\r\n", 0, 3, b"2\r"), (b"1\r,2\r\n", 0, 1, b"1\r"),
            (b"1,2\n\r3,4\r\n", 1, 4, b"\r3"), (b"1,2\r\n3,4x\r\n", 1, 8, b"4x"),
        ):
            with self.subTest(text=text), self.assertRaises(ParseError) as told:
                parse_table(text, TWO, allows_returns=True)
            error = told.exception
            self.assertEqual((error.kind, error.row, error.place, error.text),
                             ("InvalidDigit", row, place, cell))

    def test_a_file_may_be_cut_between_the_two(self):
        text = b"1,2\r\n3,4\n5,6\r\n"
        for size in range(1, len(text) + 1):
            table = read_table(io.BytesIO(text), TWO, size=size, allows_returns=True)
            self.assertEqual(lists(table), [[1, 3, 5], [2, 4, 6]])

    def test_beside_the_other_flags(self):
        text = b'"1","2"\r\n\r\n\n"3","4"\n'
        given = {"has_quotes": True, "skips_empty_rows": True, "allows_returns": True}
        self.assertEqual(lists(parse_table(text, TWO, **given)), [[1, 3], [2, 4]])
        for text in (b"12\r\n34\n", b"12\n34\r\n"):
            table = parse_table(text, TWO, widths=[1, 1], allows_returns=True)
            self.assertEqual(lists(table), [[1, 3], [2, 4]])
        with self.assertRaises(ParseError) as told:  # (where each row has one, none may lack it)
            parse_table(b"1,2\n", TWO, has_returns=True, allows_returns=True)
        self.assertEqual(told.exception.kind, "MissingReturn")

    def test_without_it_a_return_is_a_fault(self):
        for allows in (False, None, 0):
            with self.assertRaises(ParseError):
                parse_table(b"1,2\r\n", TWO, allows_returns=allows)
        with self.assertRaises(TypeError):
            parse_table(b"1,2\n", TWO, b",", *[False] * 4, b"", None, False, None, 1, True)


if __name__ == "__main__":
    unittest.main()
