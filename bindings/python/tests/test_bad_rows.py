"""Tests of bad rows that are skipped: beside a reading row by row, and misused."""

import gc
import io
import pathlib
import random
import subprocess
import sys
import tempfile
import unittest
from array import array
from collections import deque
from unittest import mock

import test_threads
from jadvolni import Column, FormatError, ParseError, iter_table, parse_table, read_table

COLUMNS = test_threads.COLUMNS
TEXT = b"1,2\nx,3\n4,5\n6\n7,8,9\n10,11"
PAIR = {"a": "u8", "b": "u8"}
# Skips a file of bad rows alone, keeps no error, and says by how much the process grew.
GROWTH = """
import resource, sys
from jadvolni import parse_table, read_table
path, threads, source = sys.argv[1], int(sys.argv[2]), sys.argv[3]
with open(path, "rb") as file:
    text = file.read() if source == "text" else b""
def peak():
    return resource.getrusage(resource.RUSAGE_SELF).ru_maxrss
seen = [0, -1]
def tell(error):
    assert error.row == error.line > seen[1] and error.place == 2 * error.row
    seen[:] = seen[0] + 1, error.row
parse_table("1,2", {"a": "u8", "b": "u8"}, threads=threads)
before = peak()
given = {"threads": threads, "on_error": "skip", "errors": tell}
if text:
    table = parse_table(text, {"a": "u8"}, **given)
else:
    table = read_table(path, {"a": "u8"}, **given)
assert seen[0] == table.bad_rows == 100_000 and len(table["a"]) == 1, (seen, table)
print(peak() - before)
"""


def rows_of(text, given):
    """Where the rows of a text start and stop, each with the line feed that ends it, and its number
    among the lines."""
    found, start, quotes = [], 0, 0
    for place, byte in enumerate(text):
        quotes += byte == ord('"') and given.get("has_quotes", False)
        if byte == 10 and quotes % 2 == 0:
            found.append((start, place + 1))
            start = place + 1
    if start < len(text):
        found.append((start, len(text)))
    empty = (b"\n", b"\r\n") if given.get("has_returns") else (b"\n",)
    return [it for it in found
            if not (given.get("skips_empty_rows") and text[it[0]:it[1]] in empty)]


def one_by_one(text, columns, before=(0, 0), **given):
    """The columns of a text whose rows are read each alone, and what its bad rows report."""
    parts, bad = [], []
    for number, (start, stop) in enumerate(rows_of(text, given)):
        try:
            parts.append(test_threads.lists(parse_table(text[start:stop], columns, **given)))
        except ParseError as error:
            _, _, column, place, line, name, first, last, shown, said = test_threads.fault_of(error)
            said = said.removeprefix(f"line {line + 1}")
            line += text.count(b"\n", 0, start) + before[1]
            start += before[0]
            bad.append((error.kind, number, column, place + start, line, name, first + start,
                        last + start, shown, f"line {line + 1}{said}"))
    return parts, bad


def joined(parts):
    """Tables as lists that stand behind each other, but their bits as truths."""
    found = {"a": [], "c": [], "d": []}
    for table in parts:
        for name, values in table.items():
            pair = isinstance(values[0], list) if values else False
            numbers, bits = values if pair else (values, None)
            for k, number in enumerate(numbers):
                found[name].append((number, bits is None or bool(bits[k >> 3] >> (k & 7) & 1)))
    return found


class Skipping(unittest.TestCase):
    """Right rows stand one behind another, and bad ones are reported."""

    def ways(self, text, columns, header=False, **given):
        """Ways to read a text: each as what gives the tables, with its list of errors."""
        given = {**given, "on_error": "skip", "header": header}
        file = io.BytesIO

        def whole(call, *words, **more):
            bad = []
            return [call(*words, columns, **given, **more, errors=bad)], bad

        def parts(**more):
            bad = []
            return list(iter_table(file(text), columns, **given, **more, errors=bad)), bad

        yield whole(parse_table, text)
        yield whole(parse_table, text, threads=2)
        yield whole(parse_table, text, threads=5)
        yield whole(read_table, file(text), size=1)
        yield whole(read_table, file(text), size=9, threads=3)
        yield parts(rows=2, size=max(len(text), 1))
        yield parts(rows=1, size=max(len(text), 1), threads=2)
        yield parts(size=60)

    def test_random_texts_beside_their_rows(self):
        chance = random.Random(4)
        counts = {"bad": 0, "right": 0, "texts": 0}
        for turn in range(400):
            given = {flag: chance.random() < 0.8 for flag in test_threads.FLAGS}
            end = b"\r\n" if given["has_returns"] else b"\n"
            text = b"".join(test_threads.random_text(chance, end) for _ in range(2))
            header = turn % 3 == 0
            head = b"a,b,c,d" + end if header else b""
            parts, bad = one_by_one(text, COLUMNS, (len(head), int(header)), **given)
            wanted = joined(parts)
            few = {"_WINDOW": chance.choice((1, 9, 1 << 18)),
                   "_MOST_BAD": chance.choice((1, 2, 4096))}
            with mock.patch.dict(sys.modules, {"numpy": None} if turn % 2 else {}), \
                    mock.patch.multiple("jadvolni._reader", **few):
                for tables, errors in self.ways_of(head + text, header, given):
                    found = joined(map(test_threads.lists, tables))
                    self.assertEqual(found, wanted, (text, given))
                    self.assertEqual([*map(test_threads.fault_of, errors)], bad, (text, given))
                    self.assertEqual(sum(it.bad_rows for it in tables), len(bad))
            counts["bad"] += len(bad)
            counts["right"] += len(wanted["d"])
            counts["texts"] += bool(bad) and bool(wanted["d"])
        self.assertGreater(min(counts.values()), 100, counts)

    def ways_of(self, text, header, given):
        """The same, where no row is too long for a block."""
        try:
            yield from self.ways(text, COLUMNS, header, **given)
        except ValueError as error:
            self.assertIn("has more than 60 bytes", str(error))

    def test_a_few(self):
        bad = []
        table = parse_table(TEXT, PAIR, on_error="skip", errors=bad)
        self.assertEqual(test_threads.lists(table), {"a": [1, 4, 10], "b": [2, 5, 11]})
        self.assertEqual(table.bad_rows, 3)
        self.assertEqual([str(it) for it in bad], [
            'line 2, "a": "x": invalid digit at byte 0 of the cell',
            'line 4: too few cells, none for "b"',
            'line 5, column 3: "9": too many cells',
        ])
        self.assertEqual([(it.row, it.line, it.row_start, it.row_stop) for it in bad],
                         [(1, 1, 4, 8), (3, 3, 12, 14), (4, 4, 14, 20)])
        self.assertEqual(parse_table(b"1,2\n", PAIR, on_error="skip").bad_rows, 0)
        self.assertEqual(parse_table(b"1,2\n", PAIR).bad_rows, 0)

    def test_texts_of_each_kind(self):
        wanted = {"a": [1, 4, 10], "b": [2, 5, 11]}
        for text in TEXT, TEXT.decode(), bytearray(TEXT), memoryview(TEXT), array("B", TEXT):
            for threads in 1, 3:
                table = parse_table(text, PAIR, threads=threads, on_error="skip")
                self.assertEqual((test_threads.lists(table), table.bad_rows), (wanted, 3))
        with tempfile.TemporaryDirectory() as folder:
            path = pathlib.Path(folder, "pairs")
            path.write_bytes(TEXT)
            for given in {}, {"mmap": True}, {"threads": 2}, {"mmap": True, "threads": 2}:
                bad = []
                table = read_table(path, PAIR, **given, on_error="skip", errors=bad)
                self.assertEqual((test_threads.lists(table), table.bad_rows), (wanted, 3))
                self.assertEqual(str(bad[1]), f'{path}, line 4: too few cells, none for "b"')

    def test_none_and_all(self):
        for text, rows, bad in (
            (b"", 0, 0), (b"\n", 0, 1), (b"\n" * 30, 0, 30), (b"x", 0, 1), (b"x\n" * 5000, 0, 5000),
            (b"\0\n1\0\n7", 1, 2), (b'"\n1\n2\n', 0, 1), (b'7\n"1\n2', 1, 1), (b"7\n" * 20, 20, 0),
            (b"x\n" * 8191 + b"7", 1, 8191), (b"x\n" * 8192 + b"7", 1, 8192),
            (b"7\n" + b"x\n" * 4096, 1, 4096), (b"7\nx\n" * 4097, 4097, 4097),
        ):
            with self.subTest(text=text[:9], count=len(text)):
                for tables, errors in self.ways(text, {"a": "u8"}, has_quotes=True):
                    self.assertEqual(sum(len(it["a"]) for it in tables), rows)
                    told = [it.row for it in errors]
                    self.assertEqual(told, sorted(set(told) & set(range(rows + bad))))
                    self.assertEqual((len(errors), sum(it.bad_rows for it in tables)), (bad, bad))
                for threads in 1, 3:
                    table = parse_table(text, {"a": "u8"}, threads=threads, has_quotes=True,
                                        on_error="skip")
                    self.assertEqual((len(table["a"]), table.bad_rows), (rows, bad))
                    self.assertEqual(set(table["a"].tolist()), {7} if rows else set())

    def test_windows(self):
        """Rows that are longer than what is read at once, and faults on both sides of its ends."""
        long = b"0" * 300_000
        text = b"1\n" + long + b"2\nx\n" + long + b"x\n3\n" + b"z\n" * 50_000 + b"4\ny"
        for call in (lambda **it: parse_table(text, {"a": "u8"}, on_error="skip", **it),
                     lambda **it: read_table(io.BytesIO(text), {"a": "u8"}, on_error="skip", **it)):
            for threads in 1, 3:
                bad = []
                table = call(errors=bad, threads=threads)
                self.assertEqual(table["a"].tolist(), [1, 2, 3, 4])
                self.assertEqual([it.row for it in bad], [2, 3, *range(5, 50_005), 50_006])
                self.assertEqual([it.line for it in bad], [it.row for it in bad])
                self.assertTrue(all(text[it.place] in b"xyz" for it in bad))
                self.assertEqual(bad[1].text, b"0" * 40)

    def test_records(self):
        text = b"0112" b"2x" b"33" b"\n0" b"44" b"5"
        few = {"_WINDOW": 3, "_MOST_BAD": 1}
        with mock.patch.multiple("jadvolni._reader", **few):
            self.records(text)
        self.records(text)

    def records(self, text):
        """Records, of which some are wrong."""
        for tables, bad in self.ways(text, PAIR, widths=[1, 1], is_records=True):
            rows = [pair for it in tables for pair in zip(it["a"].tolist(), it["b"].tolist())]
            self.assertEqual(rows, [(0, 1), (1, 2), (3, 3), (4, 4)])
            told = [(it.row, it.line, it.column, it.place, it.row_start, it.row_stop) for it in bad]
            self.assertEqual(told, [(2, 0, 1, 5, 4, 6), (4, 0, 0, 8, 8, 10), (6, 1, 1, 13, 12, 13)])
            self.assertEqual([str(it) for it in bad], [
                'row 3, "b": "x": invalid digit at byte 0 of the cell',
                r'row 5, "a": "\n": invalid digit at byte 0 of the cell',
                'row 7: too few cells, none for "b"; the row has 1 of the 2 bytes of its widths',
            ])

    def test_who_is_told(self):
        for errors, kept in (([], 3), (deque(maxlen=2), 2), (["before"], 4)):
            parse_table(TEXT, PAIR, on_error="skip", errors=errors)
            self.assertEqual(len(errors), kept)
            self.assertEqual(errors[-1].row, 4)
        seen = []
        parse_table(TEXT, PAIR, on_error="skip", errors=lambda error: seen.append(error.row))
        self.assertEqual(seen, [1, 3, 4])

    def test_tables_come_with_their_errors(self):
        seen = []
        for table in iter_table(io.BytesIO(b"1\nx\n2\n3\ny\nz\n"), {"a": "u8"}, rows=2, size=99,
                                on_error="skip", errors=seen):
            seen.append((table["a"].tolist(), table.bad_rows))
        self.assertEqual([it if isinstance(it, tuple) else it.row for it in seen],
                         [1, ([1, 2], 1), 4, 5, ([3], 2)])
        tables = list(iter_table(io.BytesIO(b"x\n"), {"a": "u8"}, on_error="skip"))
        self.assertEqual([(len(it["a"]), it.bad_rows) for it in tables], [(0, 1)])

    def test_arrays_of_the_caller(self):
        columns = {"a": Column("u8", may_miss=True), "b": "u8"}
        for threads in 1, 2, 3, 9:
            numbers, bits, others = array("B", [9] * 8), bytearray(b"\xff"), array("B", [9] * 8)
            out = {"a": (numbers, bits), "b": others}
            table = parse_table(b"1,2\nx,3\n,5\n6\n7,8,9\n10,11", columns, out=out, threads=threads,
                                on_error="skip")
            self.assertEqual(table["a"].numbers.tolist(), [1, 0, 10])
            self.assertEqual((table["b"].tolist(), table.bad_rows), ([2, 5, 11], 3))
            self.assertEqual([it for it in table["a"].present], [True, False, True])
            self.assertEqual((numbers[6:].tolist(), others[6:].tolist()), ([9, 9], [9, 9]))
            numbers.append(7), others.append(7), bits.append(7)  # (no buffer is kept)

    def test_what_errors_raises_comes_out(self):
        class Full(Exception):
            """There is no room for more."""

        def tell(error):
            if error.row >= stop:
                raise Full(error.row)

        text = bytearray(b"1\nx\n" * 3000)
        for stop in 1, 2001, 5999:
            for threads in 1, 3:
                for call in (
                    lambda **it: parse_table(text, {"a": "u8"}, **it),
                    lambda **it: parse_table(text, {"a": "u8"}, out={"a": bytearray(6000)}, **it),
                    lambda **it: read_table(io.BytesIO(text), {"a": "u8"}, size=999, **it),
                    lambda **it: list(iter_table(io.BytesIO(text), {"a": "u8"}, size=999, **it)),
                    lambda **it: parse_table(b"a\n" + text, {"a": "u8"}, header=True, **it),
                ):
                    with self.assertRaises(Full) as told:
                        call(threads=threads, on_error="skip", errors=tell)
                    self.assertEqual(told.exception.args, (stop,))
        del told
        text.append(7)  # (no buffer is kept)
        out = {"a": bytearray(4)}
        with self.assertRaises(TypeError):
            parse_table(b"1\nx\n3\n", {"a": "u8"}, out=out, on_error="skip", errors=lambda: None)
        out["a"].append(7)

    def test_memory_is_given_back(self):
        def stop(error):
            raise InterruptedError

        text, out = b"1\nx\n" * 20, array("B", [9] * 40)
        kept = text, out, stop, ParseError
        calls = [(errors, threads) for errors in (None, [], stop, deque(maxlen=1))
                 for threads in (1, 4)]
        for _ in range(2):
            gc.collect()
            before = [sys.getrefcount(it) for it in kept]
            for errors, threads in calls * 50:
                try:
                    parse_table(text, {"a": "u8"}, out={"a": out}, threads=threads,
                                on_error="skip", errors=errors)
                except InterruptedError:
                    pass
                if isinstance(errors, (list, deque)):
                    errors.clear()
            del errors
            gc.collect()
            self.assertEqual([sys.getrefcount(it) for it in kept], before)

    def test_memory_is_bounded(self):
        """A file of bad rows is skipped in little memory, where their errors aren't kept."""
        with tempfile.TemporaryDirectory() as folder:
            path = pathlib.Path(folder, "bad")
            path.write_bytes(b"x\n" * 100_000 + b"1\n")
            for threads in "1", "4":
                for source in "text", "file":
                    command = [sys.executable, "-c", GROWTH, str(path), threads, source]
                    run = subprocess.run(command, capture_output=True, text=True, timeout=120)
                    self.assertEqual(run.stderr, "")
                    self.assertLess(int(run.stdout), 40_000)

    def test_a_text_that_shrinks_meanwhile(self):
        """Who is told may change the text, and nothing else than the rest of it is read."""
        text = bytearray(b"x\n" * 5000 + b"1\n")
        seen = []

        def tell(error):
            seen.append(error.row)
            if len(seen) == 1:
                text.clear()

        table = parse_table(text, {"a": "u8"}, on_error="skip", errors=tell)
        self.assertEqual((table["a"].tolist(), table.bad_rows), ([], len(seen)))
        self.assertLess(len(seen), 5000)

    def test_a_text_that_grows_meanwhile(self):
        """Its rows end where its old ones do, or its new ones, and reading ends too."""
        for rows in range(1022, 1028):
            for more in 1, 2, 5, 64, 65, 5000:
                text, seen = bytearray(b"x\n" + b"1\n" * rows), []

                def tell(error):
                    seen.append(error.row)
                    text.extend(b"7\n" * more)

                table = parse_table(text, {"a": "u8"}, on_error="skip", errors=tell)
                self.assertIn(table["a"].tolist(), ([1] * rows, [1] * rows + [7] * more))
                self.assertEqual(seen, [0])

    def test_wrong_arguments(self):
        file = io.BytesIO
        for call in (
            lambda **it: parse_table(b"x", {"a": "u8"}, **it),
            lambda **it: read_table(file(b"x"), {"a": "u8"}, **it),
            lambda **it: next(iter_table(file(b"x"), {"a": "u8"}, **it)),
        ):
            for value in "ignore", "", None, True, 7, b"skip", ["skip"]:
                with self.assertRaisesRegex(ValueError, "^on_error has to be 'raise' or 'skip', and"
                                            " not "):
                    call(on_error=value)
            for value in [], print, 7:
                with self.assertRaisesRegex(ValueError, "^errors has to be None unless on_error is"
                                            " 'skip'$"):
                    call(errors=value)
            for value, kind in (7, "int"), ((), "tuple"), ("bad", "str"), ({}, "dict"):
                with self.assertRaisesRegex(TypeError, "^errors has to be a list, a function or"
                                            f" None, and not {kind}$"):
                    call(on_error="skip", errors=value)

    def test_what_is_wrong_with_the_call_is_raised(self):
        class Reserved:
            _fields = b"\x0a" + bytes(30) + b"\x01"

        for threads in 1, 2:
            given = {"on_error": "skip", "threads": threads}
            self.assertRaises(FormatError, parse_table, b"1", {"a": Column("u8", Reserved())},
                              **given)
            self.assertRaises(ValueError, parse_table, b"1", {"a": "u7"}, **given)
            self.assertRaises(TypeError, parse_table, 7, {"a": "u8"}, **given)
            self.assertRaises(ValueError, parse_table, b"1\n2", {"a": "u8"},
                              out={"a": bytearray(1)}, **given)
            with self.assertRaisesRegex(ValueError, "the row at byte 2 has more than 9 bytes"):
                list(iter_table(io.BytesIO(b"1\n" + b"1" * 20), {"a": "u8"}, size=9, **given))


if __name__ == "__main__":
    unittest.main()
