"""Tests of columns of texts: beside csv, by threads and blocks, for others, and misused."""

import array
import csv
import importlib.util
import io
import itertools
import pickle
import random
import tempfile
import tracemalloc
import unittest

import arrow_consumer as consumer
from jadvolni import (Column, Format, ParseError, Text, TextColumn, _core, iter_table, parse_table,
                      read_table)

HAS = {name: importlib.util.find_spec(name) is not None for name in ("numpy", "pandas")}
BOTH = {"what": Text(), "cents": "i64"}
PIECES = ("", "a", "é", "\U0001f600", ",", '"', '""', "\n", "\r\n", " ", "rent", ";", "\0", "'")


def random_table(seed, count):
    """Rows of texts and numbers, as Python writes them."""
    chosen = random.Random(seed)
    rows = [["".join(chosen.choices(PIECES, k=chosen.randrange(6))), str(chosen.randrange(-99, 99))]
            for _ in range(count)]
    written = io.StringIO(newline="")
    csv.writer(written, lineterminator="\n").writerows(rows)
    return written.getvalue().encode(), rows


class Texts(unittest.TestCase):
    """What a column of texts has."""

    def test_rows_by_hand(self):
        text = 'rent,1\n"a, ""b""",-2\n,3\n"",4\n  x ,5\né\u20ac,6\n"1\n2",7\n""""""'
        table = parse_table(text + ",8", BOTH, has_quotes=True)
        self.assertEqual(table["what"].tolist(),
                         ["rent", 'a, "b"', "", "", "  x ", "é€", "1\n2", '""'])
        self.assertEqual(table["cents"].tolist(), [1, -2, 3, 4, 5, 6, 7, 8])
        plain = parse_table('"a",1\n""b"",2\n', BOTH)["what"]
        self.assertEqual(plain.tolist(), ['"a"', '""b""'])  # (where quotes are bytes as any)

    def test_beside_csv(self):
        for seed in range(12):
            text, rows = random_table(seed, 1 + 40 * seed)
            wanted = [it for it, _ in rows]
            self.assertEqual(list(csv.reader(io.StringIO(text.decode(), newline=""))), rows)
            for threads, size in itertools.product((1, 3), (1, 37, 1 << 20)):
                given = {"has_quotes": True, "threads": threads}
                self.assertEqual(parse_table(text, BOTH, **given)["what"].tolist(), wanted)
                table = read_table(io.BytesIO(text), BOTH, size=size, **given)
                self.assertEqual(table["what"].tolist(), wanted)
                self.assertEqual(table["cents"].tolist(), [int(it) for _, it in rows])
                found = iter_table(io.BytesIO(text), BOTH, size=size + 99, rows=7, **given)
                self.assertEqual([it for part in found for it in part["what"]], wanted)

    def test_memory_grows_with_the_rows_of_a_block(self):
        """Places of texts take none for rows that other blocks of the file may have."""
        text, columns = b"a,b,c,d\n" * 500_000, dict.fromkeys("abcd", Text())
        with tempfile.NamedTemporaryFile() as file:
            file.write(text)
            file.flush()
            tracemalloc.start()
            try:
                table = read_table(file.name, columns, threads=1)
                peak = tracemalloc.get_traced_memory()[1]
            finally:
                tracemalloc.stop()
        self.assertEqual(table["d"][-1], "d")
        self.assertLess(peak, 14 * len(text))

    def test_each_way_of_a_file(self):
        text = b"cents,when,what\n1,2024-02-29,rent\n2,2024-03-01,\n"
        with tempfile.NamedTemporaryFile() as file:
            file.write(text)
            file.flush()
            for given in ({}, {"mmap": True}, {"threads": 2}, {"size": 5}):
                table = read_table(file.name, {"when": Text(), "cents": "u8"}, header=True, **given)
                self.assertEqual(list(table["when"]), ["2024-02-29", "2024-03-01"])
                self.assertEqual(list(table), ["when", "cents"])

    def test_missing_texts(self):
        column = {"a": Column(Text(), may_miss=True), "b": "u8"}
        for size, threads in itertools.product((2, 100), (1, 2)):
            for missing, text, wanted in (
                ("", b"x,1\n,2\ny,3\n" * 9, ["x", None, "y"] * 9),
                ("NA", b"NA,1\n,2\nNAN,3\n", [None, "", "NAN"]),
            ):
                given = {"missing": missing, "threads": threads}
                self.assertEqual(parse_table(text, column, **given)["a"].tolist(), wanted)
                table = read_table(io.BytesIO(text), column, size=size, **given)
                self.assertEqual(table["a"].tolist(), wanted)

    def test_blanks_are_part_of_a_text(self):
        column = {"a": Column(Text(), may_miss=True), "b": "u8"}
        text = ' ,1\n NA ,2\n"NA",3\n,5\nNA, 6\n'
        for missing, wanted in (("", [" ", " NA ", "NA", None, "NA"]),
                                ("NA", [" ", " NA ", None, "", None])):
            table = parse_table(text, column, allows_blanks=True, has_quotes=True, missing=missing)
            self.assertEqual(table["a"].tolist(), wanted)

    def test_encodings(self):
        text = "Bücher,1\n€,2\n".encode("cp1252")
        for encoding, wanted in (("cp1252", ["Bücher", "€"]), (None, [b"B\xfccher", b"\x80"])):
            table = parse_table(text, {"what": Text(encoding), "cents": "u8"})
            self.assertEqual(table["what"].tolist(), wanted)
        wrong = parse_table(b"a,1\n\xfc,2\nb,3\n", BOTH)["what"]
        self.assertEqual((wrong[0], wrong[2]), ("a", "b"))
        for ask in (lambda: wrong[1], wrong.tolist, lambda: wrong[:2], wrong.__arrow_c_array__):
            self.assertRaises(UnicodeDecodeError, ask)

    def test_the_row_of_a_text_that_is_none(self):
        """It counts over the tables of a file, and over the rows that weren't skipped."""
        text = b"a,1\n" * 5 + b"a,x\n" + b"b,2\n" * 4 + b"\xfc,3\n" + b"c,4\n" * 5
        for rows, threads in itertools.product((1, 3, 99), (1, 2)):
            given = {"rows": rows, "threads": threads, "on_error": "skip"}
            with self.assertRaises(UnicodeDecodeError) as raised:
                for table in iter_table(io.BytesIO(text), BOTH, **given):
                    list(table["what"])
            self.assertRegex(raised.exception.reason, ", in row 10 of the table$")

    def test_widths_and_records(self):
        for text, given in ((b"ab 1\nc  2\n", {}), (b"ab 1c  2", {"is_records": True})):
            table = parse_table(text, BOTH, widths=[3, 1], **given)
            self.assertEqual(table["what"].tolist(), ["ab ", "c  "])

    def test_lines_that_end_either_way(self):
        columns = {"cents": "u8", "what": Text()}
        table = parse_table(b"1,a\r\n2,b\n3,\r\r\n4,d\r", columns, allows_returns=True)
        self.assertEqual(table["what"].tolist(), ["a", "b", "\r", "d\r"])

    def test_skipped_rows_leave_no_text(self):
        rows = [b"a%d,%d\n" % (k, k) for k in range(3000)]
        wanted = [f"a{k}" for k in range(3000)]
        for at in (3000, 1500, 7, 0):
            rows.insert(at, b"bad,x\n")
        text = b"".join(rows)
        for threads, bad in itertools.product((1, 3), (None, [])):
            given = {"threads": threads, "on_error": "skip", "errors": bad}
            for table in (parse_table(text, BOTH, **given),
                          read_table(io.BytesIO(text), BOTH, size=999, **given)):
                self.assertEqual((table["what"].tolist(), table.bad_rows), (wanted, 4))
                self.assertEqual(table["what"].data, "".join(wanted).encode())
        with self.assertRaises(ParseError) as told:
            parse_table(text[6:], BOTH)
        self.assertEqual((told.exception.row, told.exception.text), (7, b"x"))

    def test_out_has_no_texts(self):
        for threads in 1, 2:
            cents = array.array("q", [9] * 4)
            table = parse_table("a,1\nb,2\n", BOTH, out={"cents": cents}, threads=threads)
            self.assertEqual((table["what"].tolist(), list(cents)[:2]), (["a", "b"], [1, 2]))

    def test_it_keeps_no_text_of_the_caller(self):
        text = bytearray(b"rent,1\nfood,2\n")
        found = parse_table(text, BOTH)["what"]
        text[:] = b"-"
        self.assertEqual(found.tolist(), ["rent", "food"])


class Sequences(unittest.TestCase):
    """A column as a sequence."""

    def test_it_is_one(self):
        found = parse_table("a,1\nbc,2\n,3\n", BOTH)["what"]
        self.assertIsInstance(found, TextColumn)
        self.assertEqual((len(found), found[0], found[-1], found[1:], found[::-1]),
                         (3, "a", "", ["bc", ""], ["", "bc", "a"]))
        self.assertEqual((list(reversed(found)), found.index("bc"), "a" in found, "x" in found),
                         (["", "bc", "a"], 1, True, False))
        self.assertEqual((repr(found), list(found.offsets), bytes(found.data)),
                         ("<TextColumn of 3 texts>", [0, 1, 3, 3], b"abc"))
        for row in (3, -4, 2**70):
            with self.assertRaisesRegex(IndexError, "^the column has 3 rows, and none of this"):
                found[row]
        for row in ("a", 1.0, None):
            with self.assertRaisesRegex(TypeError, "^a row has to be an integer or a slice, and "):
                found[row]
        self.assertEqual(pickle.loads(pickle.dumps(found)).tolist(), ["a", "bc", ""])
        self.assertEqual(parse_table("", BOTH)["what"].tolist(), [])

    def test_a_list_has_what_each_row_has(self):
        chance = random.Random(5)
        texts = ["", "a", "Bücher", "€\U0001f600", "x" * 300, "\0", 'a"b', "NA"]
        for encoding in "utf-8", "UTF8", "utf-16-le", "latin-1", None:
            for count in 0, 1, 7, 8, 9, 1000:
                chosen = [chance.choice(texts) for _ in range(count)]
                raw = [it.encode(encoding or "utf-8", "replace") for it in chosen]
                offsets = array.array("q", [0, *itertools.accumulate(map(len, raw))])
                truths = [chance.random() < 0.7 for _ in range(count)]
                bits = bytearray((count + 7) // 8)
                for row in filter(truths.__getitem__, range(count)):
                    bits[row >> 3] |= 1 << (row & 7)
                for given in None, array.array("B", bits):
                    found = TextColumn(bytearray(b"".join(raw)), offsets, given, encoding)
                    wanted = [it if encoding is None else it.decode(encoding) for it in raw]
                    if given is not None:
                        wanted = [it if kept else None for it, kept in zip(wanted, truths)]
                    self.assertEqual(found.tolist(), wanted)
                    self.assertEqual([found[row] for row in range(count)], wanted)
                    self.assertEqual(list(found), wanted)

    def test_columns_of_ones_own(self):
        """Their places may be anything: then a list has what slices of the bytes are."""
        for offsets, wanted in (
            (array.array("q", [0, 2, 9]), ["ab", "c"]), (array.array("q", [3, 1, 2]), ["", "b"]),
            (array.array("q", [-2, 3]), ["bc"]), (array.array("i", [0, 1, 3]), ["a", "bc"]),
            (array.array("q", [2**62, 2**63 - 1]), [""]), (array.array("q", [0]), []),
        ):
            found = TextColumn(bytearray(b"abc"), offsets)
            self.assertEqual(found.tolist(), wanted)
            self.assertEqual(found.tolist(), list(found))
        short = TextColumn(bytearray(b"abc"), array.array("q", range(4)), b"")
        self.assertRaises(IndexError, short.tolist)
        wrong = TextColumn(bytearray(b"a\xffc"), array.array("q", range(4)))
        self.assertRaises(UnicodeDecodeError, wrong.tolist)
        wrong.data.append(7)  # (no buffer is kept)
        unknown = TextColumn(bytearray(), array.array("q", [0]), None, "x")
        self.assertRaises(LookupError, unknown.tolist)

    @unittest.skipUnless(HAS["numpy"], "NumPy isn't installed")
    def test_numpy_and_pandas_have_objects(self):
        table = parse_table("a,1\n,2\n", {"a": Column(Text(), may_miss=True), "b": "u8"})
        for found in (table["a"].to_numpy(), table.to_numpy()["a"]):
            self.assertEqual((found.dtype.kind, found.tolist()), ("O", ["a", None]))
        if HAS["pandas"]:
            for found in (table["a"].to_pandas(), table.to_pandas()["a"]):
                self.assertEqual((found.dtype.kind, found.tolist()), ("O", ["a", None]))
            self.assertEqual(parse_table("", BOTH).to_pandas().shape, (0, 2))

    @unittest.skipUnless(HAS["pandas"], "pandas isn't installed")
    def test_categories_of_pandas(self):
        column = Column(Text(), may_miss=True)
        columns = {"a": column, "b": "u8", "c": Text("cp1252"), "d": Text(None)}
        text = "rent,1,\xfc,x\nfood,2,b,y\n,3,,x\nrent,4,b,\n".encode("cp1252")
        table = parse_table(text, columns)
        a = (["food", "rent"], [1, 0, -1, 1])
        found = {"a": a, "c": (["", "b", "\xfc"], [2, 1, 0, 1]),
                 "d": ([b"", b"x", b"y"], [1, 2, 1, 0])}
        for asked, names in ((False, ()), (True, "acd"), ({"a", "d"}, "ad"), (["c"], "c"),
                             (frozenset(), "")):
            frame = table.to_pandas(categories=asked)
            self.assertEqual(frame["b"].tolist(), [1, 2, 3, 4])
            for name in "acd":
                is_category = str(frame[name].dtype) == "category"
                self.assertEqual(is_category, name in names)
                if is_category:
                    told = frame[name].cat
                    self.assertEqual((told.categories.tolist(), told.codes.tolist()), found[name])
        told = table["a"].to_pandas(categories=True).cat
        self.assertEqual((told.categories.tolist(), told.codes.tolist()), a)
        for rows in (b"", b",1,,\n"):
            told = parse_table(rows, columns).to_pandas(categories=True)["a"]
            self.assertEqual(told.cat.categories.tolist(), [])
            self.assertEqual(told.isna().tolist(), [True] * len(told))
        for asked, kind, message in (
            ({"b"}, ValueError, "^categories has 'b', which is no column of texts"),
            (["a", "e"], ValueError, "^categories has 'e', which is no column of texts"),
            ("a", TypeError, "^categories has to be True, False or a set of names, and not str"),
            (1, TypeError, "^categories has to be True, False or a set of names, and not int"),
            (None, TypeError, "^categories has to be True, False or a set of names, and not None"),
        ):
            with self.assertRaisesRegex(kind, message):
                table.to_pandas(categories=asked)


class Capsules(unittest.TestCase):
    """A column for Arrow."""

    def read(self, text, kind, **given):
        """What Arrow reads of a column, and its format."""
        table = parse_table(text, {"a": Column(kind, **given), "b": "u8"})
        schema = consumer.taken(table["a"].__arrow_c_schema__(), consumer.Schema)
        format = schema.format
        consumer.release(schema)
        found = consumer.read(table["a"].__arrow_c_array__(), consumer.column)
        whole = consumer.tables(table.__arrow_c_stream__())[0]
        self.assertEqual((whole["a"], whole["b"]), (found, table["b"].tolist()))
        return format, found

    def test_what_it_has(self):
        many = [f"é{k}" for k in range(5000)]
        for text, kind, given, wanted in (
            ("a,1\néa,2\n,3\n", Text(), {}, (b"U", ["a", "éa", ""])),
            ("a,1\n,2\n", Text(), {"may_miss": True}, (b"U", ["a", None])),
            (b"\xfc,1\n", Text("cp1252"), {}, (b"U", ["ü"])),
            (b"\xfc,1\n,2\n", Text("latin-1"), {"may_miss": True}, (b"U", ["ü", None])),
            (b"\xfc,1\n", Text(None), {}, (b"Z", [b"\xfc"])),
            ("", Text(), {}, (b"U", [])),
            (",1\n,2\n", Text(), {}, (b"U", ["", ""])),
            ("".join(f"{it},1\n" for it in many), Text(), {}, (b"U", many)),
        ):
            with self.subTest(text=text[:20], kind=kind):
                self.assertEqual(self.read(text, kind, **given), wanted)

    def test_no_text_is_handed_out_that_is_none(self):
        # The two are UTF-8 together, and neither is alone.
        table = parse_table(b"\xc3,1\n\xa9,2\n", BOTH)
        for it in (table, table["what"]):
            self.assertRaises(UnicodeDecodeError, it.__arrow_c_array__)
        self.assertRaises(UnicodeDecodeError, table.__arrow_c_stream__)

    def test_no_text_is_copied(self):
        found = parse_table("rent,1\n", BOTH)["what"]
        schema, values = found.__arrow_c_array__()
        taken = consumer.taken(values, consumer.Array)
        with self.assertRaises(BufferError):
            found.data.clear()
        self.assertEqual(consumer.ctypes.string_at(taken.buffers[2], 4), b"rent")
        consumer.release(taken)
        found.data.clear()


class Misuse(unittest.TestCase):
    """What is no column of texts."""

    def test_wrong_descriptions(self):
        for encoding in ("no such one", "hex", "rot13"):
            self.assertRaises(LookupError, Text, encoding)
        for encoding in (b"utf-8", 8, True):
            with self.assertRaisesRegex(TypeError, "^encoding has to be a str or None, and not"):
                Text(encoding)
        self.assertEqual((Text(), repr(Text(None))), (Text("utf-8"), "Text(encoding=None)"))
        with self.assertRaisesRegex(TypeError, "^format has to be None where the type is a Text"):
            parse_table("a\n", {"a": Column(Text(), Format())})
        self.assertRaises((TypeError, ValueError), parse_table, "a\n", {"a": Text})
        for call in (_core.parse, _core.parse_column):
            self.assertRaises(TypeError, call, "a", Text())

    def test_rooms_that_are_none(self):
        how = (b",", False, False, False, False, b"", array.array("Q"), False, False)

        def read(sizes, data, at=0):
            _core._parse_table(b"a\nb\n", 0, 9, True, how, ((sizes, None, None, None, data),), at,
                               2, -1)

        for sizes, data, error in (
            (array.array("q", [0]), bytearray(), ValueError),
            (array.array("i", [0] * 9), bytearray(), ValueError),
            (array.array("q", [0] * 9), b"", TypeError),
            (b"", bytearray(), BufferError),
        ):
            self.assertRaises(error, read, sizes, data)
        self.assertRaises(ValueError, read, array.array("q", [0] * 9), bytearray(), 8)
        sizes, data, data_held = array.array("q", [5] * 9), bytearray(b"x"), bytearray(b"x")
        read(sizes, data, 7)
        self.assertEqual((list(sizes), data), ([5] * 7 + [1, 1], b"xab"))
        with memoryview(data_held):
            self.assertRaises(BufferError, read, sizes, data_held)


if __name__ == "__main__":
    unittest.main()
