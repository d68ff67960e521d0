"""Tests of headers: columns by their names, from texts and files."""

import gzip
import io
import pathlib
import random
import tempfile
import tracemalloc
import unittest
from array import array

import test_files
import test_tables
import test_threads
from jadvolni import Column, ParseError, iter_table, parse_table, read_table

TEXT = b"id,what,amount\n1,rent,-80000\n2,,7\n"
WANTED = {"amount": [-80000, 7], "id": [1, 2]}
COLUMNS = {"amount": "i64", "id": "u8"}
GZIP = "; this file is gzip-compressed: open it with gzip.open"


class Names(unittest.TestCase):
    """Columns by their names."""

    def setUp(self):
        folder = tempfile.TemporaryDirectory()
        self.addCleanup(folder.cleanup)
        self.path = pathlib.Path(folder.name, "table")

    def found(self, text, columns, **given):
        """The columns of a text, which every call gives alike."""
        wanted = test_files.outcome(
            lambda: test_tables.lists(parse_table(text, columns, header=True, **given)))
        self.path.write_bytes(text)

        def by_blocks(size, threads):
            found = {}
            for table in iter_table(io.BytesIO(text), columns, header=True, size=size,
                                    threads=threads, **given):
                for name, values in test_tables.lists(table).items():
                    found[name] = found.get(name, []) + values
            return found or {name: [] for name, it in columns.items() if it}

        def by_file(file, **more):
            return test_tables.lists(read_table(file, columns, header=True, **given, **more))

        for call in (
            lambda: test_tables.lists(parse_table(text, columns, header=True, threads=3, **given)),
            lambda: by_file(self.path), lambda: by_file(self.path, mmap=True),
            lambda: by_file(self.path, threads=2, size=7),
            lambda: by_file(io.BytesIO(text), size=1),
            lambda: by_blocks(60, 1), lambda: by_blocks(60, 3),
        ):
            self.assertEqual(test_files.outcome(call), wanted)
        return wanted

    def test_names_choose(self):
        found = self.found(TEXT, COLUMNS)
        self.assertEqual(found, WANTED)
        self.assertEqual(list(found), ["amount", "id"])
        self.assertEqual(self.found(TEXT, {"id": "u8", "what": None}), {"id": [1, 2]})
        self.assertEqual(self.found(TEXT, {}), {})
        self.assertEqual(self.found(b"id,what,amount", COLUMNS), {"amount": [], "id": []})
        table = parse_table(TEXT.decode(), COLUMNS, header=True)
        self.assertEqual(test_tables.lists(table), WANTED)

    def test_it_is_read_by_the_rules_of_the_table(self):
        for text, given in (
            (b"\xef\xbb\xbfid;amount\r\n1;-80000\r\n2;7\r\n",
             {"separator": ";", "has_returns": True}),
            (b'"id","a\nb","amount"\n1,"x\n",-80000\n2,,7', {"has_quotes": True}),
            (b' "id"\t, b ,\tamount \n1,,-80000\n2,,7',
             {"has_quotes": True, "allows_blanks": True}),
            (b'id,what "x",amount\n1,x,-80000\n2,y,7\n', {}),
            (b'id,5" pipe,amount\n1,x,-80000\n2,y,7\n', {"has_quotes": True}),
            (b'id"amount\n1"-80000\n2"7\n', {"separator": '"'}),
            (b"id\tamount\n\n1\t-80000\n\n2\t7\n",
             {"separator": "\t", "skips_empty_rows": True}),
            (b'" id ","amount\t"\n1,-80000\n2,7\n', {"has_quotes": True, "allows_blanks": True}),
        ):
            with self.subTest(text=text):
                self.assertEqual(self.found(text, COLUMNS, **given), WANTED)
        quoted = b'"a ""b"", c",x\n1,2\n'
        self.assertEqual(self.found(quoted, {'a "b", c': "u8"}, has_quotes=True),
                         {'a "b", c': [1]})
        self.assertEqual(self.found("äöü,x\n1,2\n".encode(), {"äöü": "u8"}), {"äöü": [1]})
        self.assertEqual(self.found(b"\xff,x\n1,2\n", {"\udcff": "u8"}), {"\udcff": [1]})
        self.assertEqual(self.found(b",x\n1,2\n", {"": "u8"}), {"": [1]})

    def test_empty_rows_before_it_are_skipped(self):
        for end, given in ((b"\n", {}), (b"\r\n", {"has_returns": True}),
                           (b"\n", {"allows_returns": True}), (b"\r\n", {"allows_returns": True})):
            for mark in b"", b"\xef\xbb\xbf":
                for count in 0, 1, 2, 300:
                    text = mark + count * end + TEXT.replace(b"\n", end)
                    found = self.found(text, COLUMNS, skips_empty_rows=True, **given)
                    self.assertEqual(found, WANTED)
                    bad = self.found(text + b"x" + end, COLUMNS, skips_empty_rows=True, **given)
                    self.assertEqual(bad[:5], ("InvalidDigit", 2, 0, len(text), count + 3))
        for text in b"", b"\n", b"\n\n\n", b"\xef\xbb\xbf\n\n":
            with self.assertRaisesRegex(ValueError, "^there is no header: the text has no byte$"):
                parse_table(text, COLUMNS, header=True, skips_empty_rows=True)
        # A line feed alone is an empty row where each row has to have a return, too.
        for front in b"\n", b"\n\r\n\n", b"\xef\xbb\xbf\n" + 300 * b"\r\n\n":
            text = front + TEXT.replace(b"\n", b"\r\n")
            self.assertEqual(self.found(text, COLUMNS, skips_empty_rows=True, has_returns=True),
                             WANTED)
        self.assertEqual(self.found(b"\n\xef\xbb\xbfid\n1\n", {"\ufeffid": "u8"},
                                    skips_empty_rows=True), {"\ufeffid": [1]})
        for returns in "allows_returns", "has_returns":
            with self.assertRaisesRegex(ValueError, "the text has returns and no line feed"):
                parse_table(b"\r\rid\r", COLUMNS, header=True, skips_empty_rows=True,
                            **{returns: True})
        text = b"\n" * 100_000 + TEXT
        tables = iter_table(io.BytesIO(text), COLUMNS, header=True, skips_empty_rows=True, size=40)
        self.assertEqual(sum(len(it["id"]) for it in tables), 2)
        self.assertEqual(parse_table("\n\nid\n", {"id": "u8"}, header=True,
                                     skips_empty_rows=True)["id"].tolist(), [])

    def test_many_empty_rows_take_no_memory_of_their_own(self):
        text, given = b"\r\n" * 500_000 + b"a\n1\n", {"skips_empty_rows": True, "header": True}
        tracemalloc.start()
        try:
            found = parse_table(text, {"a": "u8"}, allows_returns=True, **given)
            self.assertLess(tracemalloc.get_traced_memory()[1], 8 * len(text))
        finally:
            tracemalloc.stop()
        self.assertEqual(test_tables.lists(found), {"a": [1]})

    def test_names_that_are_missing_or_twice(self):
        for text, columns, given, message in (
            (TEXT, {"id": "u8", "betrag": "i64"}, {},
             "the header has no column 'betrag': it has 'id', 'what', 'amount'"),
            (TEXT, {"x": None, "y": "u8"}, {},
             "the header has no column 'x', 'y': it has 'id', 'what', 'amount'"),
            (b"id;amount\n1;2\n", COLUMNS, {}, "the header has no column 'amount', 'id': it has"
             " 'id;amount'; separator may have to be ';'"),
            (b"a,id,id,b,id\n", {"id": "u8"}, {}, "the header has 'id' as its columns 2 and 3 and"
             " 5: no name chooses one of 'a', 'id', 'id', 'b', 'id'"),
            (b"", COLUMNS, {}, "there is no header: the text has no byte"),
            (b"id,amount\r1,2\r", COLUMNS, {},
             "the text has returns and no line feed, which has to end each line"),
            (b"id,amount\r\n", COLUMNS, {},
             "the header has no column 'amount': it has 'id', 'amount\\r'; allows_returns may have"
             " to be True"),
            (b"id,amount\r\n", {"x": "u8"}, {},
             "the header has no column 'x': it has 'id', 'amount\\r'"),
            (b",".join(b"%d" % k for k in range(50)), {"x": "u8"}, {}, "the header has no column"
             f" 'x': it has {', '.join(repr(str(k)) for k in range(40))} and 10 more"),
            (b"x" * 1000, {"y" * 1000: "u8"}, {},
             f"the header has no column '{'y' * 40}'..: it has '{'x' * 40}'.."),
            (b"x," * 49 + b"x", {"x": "u8"}, {}, "the header has 'x' as its columns"
             f" {' and '.join(map(str, range(1, 41)))} and more: no name chooses one of"
             f" {', '.join(40 * [repr('x')])} and 10 more"),
        ):
            with self.subTest(text=text):
                with self.assertRaises(ValueError) as told:
                    parse_table(text, columns, header=True, **given)
                self.assertEqual(str(told.exception), message)
                with self.assertRaises(ValueError) as told:
                    next(iter_table(io.BytesIO(text), columns, header=True, **given))
                self.assertEqual(str(told.exception), message)
        self.assertEqual(self.found(b"id,x,x,amount\n1,a,b,-80000\n2,,,7\n", COLUMNS), WANTED)

    def test_a_note_names_the_file(self):
        self.path.write_bytes(TEXT)
        wanted = [f"The file is {self.path}."]
        calls = [lambda more=more: read_table(self.path, {"x": "u8"}, header=True, **more)
                 for more in ({}, {"mmap": True}, {"threads": 2}, {"out": {"x": array("B", [0])}})]
        with open(self.path, "rb") as file:
            calls.append(lambda: next(iter_table(file, {"x": "u8"}, header=True)))
            for call in calls:
                with self.assertRaisesRegex(ValueError, "^the header has no column 'x'") as told:
                    call()
                self.assertEqual(told.exception.__notes__, wanted)
        for call in (lambda: parse_table(TEXT, {"x": "u8"}, header=True),
                     lambda: read_table(io.BytesIO(TEXT), {"x": "u8"}, header=True),
                     lambda: read_table(self.path, {"what": "u8"}, header=True)):
            with self.assertRaises(ValueError) as told:
                call()
            self.assertFalse(hasattr(told.exception, "__notes__"))

    def test_faults_count_from_the_texts_start(self):
        self.assertEqual(self.found(TEXT + b"3,,8x\n", COLUMNS), (
            "InvalidDigit", 2, 2, 38, 3, "amount", 34, 40, b"8x",
            'line 4, "amount": "8x": invalid digit at byte 1 of the cell'))
        self.assertEqual(self.found(TEXT + b"3,,8,9\n", COLUMNS)[:4], ("TooManyCells", 2, 3, 39))
        self.assertEqual(self.found(b"\xef\xbb\xbfid\nx\n", {"id": "u8"})[:4],
                         ("InvalidDigit", 0, 0, 6))

    def test_random_texts_beside_those_behind_the_header(self):
        chance = random.Random(3)
        for _ in range(60):
            given = {flag: chance.random() < 0.9 for flag in test_threads.FLAGS}
            end = b"\r\n" if given["has_returns"] else b"\n"
            text, head = test_threads.random_text(chance, end), b"a,b,c,d" + end
            wanted = test_threads.told(text, test_threads.COLUMNS, **given)
            found = self.found(head + text, test_threads.COLUMNS, **given)
            if isinstance(wanted, tuple):
                kind, row, column, place, line, name, start, stop = wanted[:8]
                places = [it + len(head) for it in (place, start, stop)]
                self.assertEqual(found[:9], (kind, row, column, places[0], line + 1, name,
                                             *places[1:], wanted[8]))
            elif len(wanted["d"]) and max(map(len, text.split(b"\n"))) < 50:
                self.assertEqual(found["d"], wanted["d"])

    def test_progress_and_out(self):
        self.path.write_bytes(TEXT)
        for threads in 1, 2:
            for call in (lambda **it: read_table(self.path, COLUMNS, **it),
                         lambda **it: list(iter_table(io.BytesIO(TEXT), COLUMNS, **it))):
                told = []
                call(header=True, threads=threads, size=20, progress=told.append)
                self.assertEqual(sum(told), len(TEXT))
        out = {"id": array("B", [9] * 3), "amount": array("q", [9] * 3)}
        for call in (lambda **it: parse_table(TEXT, COLUMNS, **it),
                     lambda **it: read_table(self.path, COLUMNS, **it)):
            self.assertEqual(test_tables.lists(call(header=True, out=out)), WANTED)
        out["id"] = array("B", [9])
        with self.assertRaisesRegex(ValueError, "room for the 2 rows"):
            parse_table(TEXT, COLUMNS, header=True, out=out)

    def test_a_long_header(self):
        names = [f"name {k}" for k in range(20_000)]
        text = (",".join(names) + "\n" + ",".join(map(str, range(20_000)))).encode()
        columns = {"name 19999": "u16", "name 7": Column("u16", may_miss=True)}
        every = dict.fromkeys(names, "u16")
        self.assertEqual(sum(len(it) for it in parse_table(text, every, header=True).values()),
                         20_000)
        self.assertEqual(test_tables.lists(parse_table(text, columns, header=True)),
                         {"name 19999": [19999], "name 7": [7]})
        with self.assertRaisesRegex(ValueError, "^the header has more than 99 bytes; size may"
                                    " have to be larger$"):
            next(iter_table(io.BytesIO(text), columns, header=True, size=99))
        with self.assertRaisesRegex(ValueError, "more than 9 bytes: the quote at byte 2 may lack"
                                    " the one that closes it, or size may have to be larger$"):
            next(iter_table(io.BytesIO(b'a,"b\n1,2\n3,4\n'), {"a": "u8"}, header=True, size=9,
                            has_quotes=True))
        with self.assertRaisesRegex(ValueError, "^the header has more than 2 bytes; size may have"
                                    " to be larger$"):  # (the quote is one of the next row)
            next(iter_table(io.BytesIO(b'ab\n"3"\n'), {"ab": "u8"}, header=True, size=2,
                            has_quotes=True))
        self.assertEqual(test_tables.lists(parse_table(
            b"a\x80b\n1\x802\n", {"b": "u8"}, "\udc80", header=True)), {"b": [2]})
        wide = {"separator": "|", "header": True}
        self.assertRaises(ParseError, parse_table, "a|b\n1|x\n", {"b": "u8"}, **wide)

    def test_widths(self):
        text = b"id day  amount\n 12x    -100  \n  3longe5     \n"
        how = {"widths": [3, 5, 6], "allows_blanks": True}
        wanted = {"amount": [-100, 5], "id": [12, 3]}
        self.assertEqual(self.found(text, COLUMNS, **how), wanted)
        self.assertEqual(self.found(b"\xef\xbb\xbf" + text, COLUMNS, **how), wanted)
        returns = text.replace(b"\n", b"\r\n")
        self.assertEqual(self.found(returns, COLUMNS, **how, has_returns=True), wanted)
        self.assertEqual(self.found(returns, COLUMNS, **how, allows_returns=True), wanted)
        self.assertEqual(self.found(b"\n\n" + text, COLUMNS, **how, skips_empty_rows=True), wanted)
        self.assertEqual(self.found(text[:15], COLUMNS, **how), {"amount": [], "id": []})
        self.assertEqual(self.found(b'"i""d"x\n12    3\n', {'i"d': "u8"}, widths=[6, 1],
                                    has_quotes=True, allows_blanks=True), {'i"d': [12]})
        once = parse_table(text, COLUMNS, header=True, widths=iter([3, 5, 6]), allows_blanks=True)
        self.assertEqual(test_tables.lists(once), wanted)
        self.assertEqual(self.found(text.replace(b"-100", b"-1x0"), COLUMNS, **how)[-1],
                         'line 2, "amount": "-1x0  ": invalid digit at byte 2 of the cell')

    def test_wrong_widths(self):
        text = b"id day  amount\n 12x    -100  \n"
        for widths, told in (
            ([3, 5, 7], "the header has 14 bytes, and the widths have 15: pad it if its last blanks"
             " were trimmed"),
            ([3, 5], "the header has 14 bytes, and the widths have 8"),
            ([], "the header has 14 bytes, and the widths have 0"),
            ([3, 5, -1], "a width has to be from 0 to 9223372036854775807, and not -1"),
        ):
            with self.assertRaises(ValueError) as caught:
                parse_table(text, COLUMNS, header=True, widths=widths, allows_blanks=True)
            self.assertEqual(str(caught.exception), told)
        with self.assertRaisesRegex(TypeError, "widths has to be a list or None, and not int"):
            parse_table(text, COLUMNS, header=True, widths=7)
        with self.assertRaisesRegex(ValueError, "separator has to be None where there are widths"):
            parse_table(text, COLUMNS, ",", header=True, widths=[3, 5, 6])
        for header in False, True:
            with self.assertRaisesRegex(ValueError, "widths have to be there where is_records is"):
                parse_table(text, COLUMNS, header=header, is_records=True)

    def test_records(self):
        text = b"id day  amount 12x    -100    3long\n5     "
        how = {"widths": [3, 5, 6], "is_records": True, "allows_blanks": True}
        wanted = {"amount": [-100, 5], "id": [12, 3]}
        for mark in b"", b"\xef\xbb\xbf":
            self.assertEqual(self.found(mark + text, COLUMNS, **how), wanted)
            self.assertEqual(self.found(mark + text[:14], COLUMNS, **how), {"amount": [], "id": []})
            fault = self.found(mark + text + b"  7x    ", COLUMNS, **how)
            self.assertEqual(fault[:4], ("TooFewCells", 2, 2, len(mark + text) + 8))
            fault = self.found(mark + text.replace(b"-100", b"-1x0"), COLUMNS, **how)
            self.assertEqual(fault[-1], 'row 1, "amount": "-1x0  ": invalid digit at byte 2 of the'
                                        ' cell')
        self.assertEqual(self.found(b"\na\r71\r", {"\na\r": "u8"}, widths=[3], is_records=True,
                                    has_returns=True)[:4], ("InvalidDigit", 0, 0, 5))
        self.assertEqual(self.found(b"\xef12", {"\udcef": "u8"}, widths=[1], is_records=True),
                         {"\udcef": [1, 2]})
        self.assertEqual(self.found(b'"a"b 7 x', {"a": "u8"}, widths=[3, 1], is_records=True,
                                    has_quotes=True, allows_blanks=True), {"a": [7]})

    def test_wrong_records(self):
        how = {"header": True, "is_records": True, "widths": [3, 5, 6]}
        for text, told in (
            (b"", "there is no header: the text has no byte"),
            (b"id ", "the header has 3 bytes, and the widths have 14"),
            (b"\xef\xbb\xbf", "the header has 0 bytes, and the widths have 14"),
            (b"\x1f\x8b\x08", f"the header has 3 bytes, and the widths have 14{GZIP}"),
            (b"id day  amount", "the header has no column 'id': it has 'id ', 'day  ', 'amount'; "
                                "allows_blanks may have to be True"),
        ):
            for call in (lambda: parse_table(text, COLUMNS, **how),
                         lambda: read_table(io.BytesIO(text), COLUMNS, **how),
                         lambda: list(iter_table(io.BytesIO(text), COLUMNS, **how, size=14))):
                with self.assertRaises(ValueError) as caught:
                    call()
                self.assertEqual(str(caught.exception), told)
        with self.assertRaisesRegex(ValueError, "^the header has more than 13 bytes; size may"):
            next(iter_table(io.BytesIO(b"x" * 99), COLUMNS, **how, size=13))
        for widths in [0, 0], [2, 2**63 - 1]:
            with self.assertRaisesRegex(ValueError, "the header has . bytes, and the widths have"):
                parse_table(b"1234", COLUMNS, header=True, is_records=True, widths=widths)

    def test_why_a_name_may_lack(self):
        for text, given, hint in (
            (b"id day  amount\n", {"widths": [3, 5, 6]}, "; allows_blanks may have to be True"),
            (b"id, amount\n", {}, "; allows_blanks may have to be True"),
            (b"id, amount\n", {"allows_blanks": True, "separator": ";"},
             "; separator may have to be ','"),
            (b'day,"id","amount"\r\n', {}, "; has_quotes may have to be True"),
            (b'id,"a text\nin two lines",amount\n', {}, "; has_quotes may have to be True"),
            (b'"id","amount"\r\n', {"has_quotes": True}, "; allows_returns may have to be True"),
            (b'"id","amounts"\n', {"has_quotes": True}, ": it has 'id', 'amounts'"),
            (b"\nid,amount\n", {},
             "; the first row is empty: skips_empty_rows may have to be True"),
            (b"\n", {"skips_empty_rows": True}, "there is no header: the text has no byte"),
            ("id,amount\n".encode("utf-16"), {}, "; the text may be UTF-16, and has to be UTF-8"),
            (gzip.compress(b"id,amount\n1,2\n", mtime=0), {}, GZIP),
            (b"\x1f\x8b\x08\r\0", {}, GZIP),
            (b"\x1f\x8b\x08\n", {"widths": [1, 1]}, GZIP),
            (b"PK\x03\x04\n", {}, "; this file is a zip archive: open what is in it with zipfile"),
        ):
            with self.assertRaises(ValueError) as caught:
                parse_table(text, COLUMNS, header=True, **given)
            self.assertEqual(str(caught.exception)[-len(hint):], hint)

    def test_wrong_arguments(self):
        for header in "yes", 1, None, ["a"]:
            with self.assertRaisesRegex(TypeError, "header has to be True or False, and not"):
                parse_table(TEXT, COLUMNS, header=header)
        for call in (lambda *it, **more: parse_table(TEXT, *it, **more),
                     lambda *it, **more: next(iter_table(io.BytesIO(TEXT), *it, **more))):
            with self.assertRaisesRegex(ValueError, "separator has to be one byte, and not 2"):
                call(COLUMNS, "ab", header=True)
            with self.assertRaisesRegex(TypeError, "columns has to be a dict, and not list"):
                call(["id"], header=True)
            for separator in 7, object(), array("H", [44]):
                with self.assertRaisesRegex(TypeError, "separator has to be a str or contiguous"):
                    call(COLUMNS, separator, header=True)
        for text in 7, None, array("H", [1]), memoryview(b"1234")[::2]:
            with self.assertRaisesRegex(TypeError, "text has to be a str or contiguous bytes"):
                parse_table(text, COLUMNS, header=True)
        text = bytearray(TEXT + b"x")
        self.assertRaises(ParseError, parse_table, text, COLUMNS, header=True)
        text.append(7)  # (no buffer is kept)


if __name__ == "__main__":
    unittest.main()
