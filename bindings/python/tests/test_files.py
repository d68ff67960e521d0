"""Tests of files: by blocks, by few bytes a call, cut short, in threads, with little memory."""

import gc
import gzip
import io
import os
import pathlib
import random
import subprocess
import sys
import tempfile
import time
import unittest
import weakref
import zipfile
from unittest import mock

import test_threads
from jadvolni import Column, ParseError, iter_column, iter_table, parse_table, read_table

COLUMNS = {"a": Column("u16", may_miss=True), "b": None, "c": "i32"}
QUOTED = {"has_quotes": True}
# Reads a row with many line feeds within quotes, and says by how much the process grew.
GROWTH = """
import resource, sys
if sys.argv[1] == "array":
    sys.modules["numpy"] = None
from jadvolni import parse_table, read_table
path, columns = sys.argv[2], {"a": None, "b": "i64"}
with open(path, "rb") as file:
    text = file.read() if sys.argv[3] == "text" else b""
def peak():
    return resource.getrusage(resource.RUSAGE_SELF).ru_maxrss
parse_table("1,2", columns)
before = peak()
if text:
    rows = parse_table(text, columns, has_quotes=True)
else:
    rows = read_table(path, columns, has_quotes=True)
assert rows["b"].tolist() == [7] * 3, rows
print(peak() - before)
"""


class Dribbling(io.BytesIO):
    """A file that gives one byte a call."""

    def read(self, size=-1):
        return super().read(1)


def outcome(call):
    """What a call gives as lists, or its fault."""
    try:
        return call()
    except ParseError as error:
        return test_threads.fault_of(error)


class Failing:
    """A file that can't be read."""

    def read(self, _):
        raise OSError("no disk")


class Other(io.BytesIO):
    """A file that is none of Python's own."""


def events(file, skips, **given):
    """The tables of a file, its progress and its errors, as they come."""
    found = []
    if skips:
        given |= {"on_error": "skip", "errors": lambda error: found.append(str(error))}
    try:
        for table in iter_table(file, test_threads.COLUMNS, **given, progress=found.append):
            found.append({name: values.tolist() for name, values in table.items()})
    except ValueError as error:
        found.append(str(error))
    return found


class Files(unittest.TestCase):
    """Files of any kind have the rows and the fault of their text."""

    def setUp(self):
        folder = tempfile.TemporaryDirectory()
        self.addCleanup(folder.cleanup)
        self.path = pathlib.Path(folder.name, "table")

    def test_random_files_beside_their_text(self):
        chance = random.Random(2)
        faults = 0
        for turn in range(300):
            given = {flag: chance.random() < 0.9 for flag in test_threads.FLAGS}
            text = test_threads.random_text(chance, b"\r\n" if given["has_returns"] else b"\n")
            with mock.patch.dict(sys.modules, {"numpy": None} if turn % 2 else {}):
                wanted = test_threads.told(text, test_threads.COLUMNS, **given)
                faults += isinstance(wanted, tuple)
                for threads in 1, 3:
                    size = chance.choice((1, 2, 7, 30, 1000))
                    found = outcome(lambda: test_threads.lists(read_table(
                        io.BytesIO(text), test_threads.COLUMNS, **given, size=size,
                        threads=threads)))
                    self.assertEqual(found, wanted, (text, given, threads, size))
        self.assertGreater(faults, 50)

    def test_pieces_give_the_tables_of_blocks(self):
        """One of Python's own files is read by pieces of a block, and any other by whole ones."""
        chance = random.Random(3)
        ends = set()
        for turn in range(600):
            given = {flag: chance.random() < 0.9 for flag in test_threads.FLAGS}
            end = b"\r\n" if given["has_returns"] else b"\n"
            text = test_threads.random_text(chance, end)
            if turn % 3 == 0:
                given["header"], text = True, b"a,b,c,d" + end + text
            given["skips"] = chance.random() < 0.3
            given["size"] = chance.choice((20, 30, 60, 100, 1000))
            given["rows"] = chance.choice((1, 3, 99))
            wanted = events(Other(text), **given)
            few = {"_PIECE": chance.choice((1, 7, 30)), "_FRONT": chance.choice((0, 9, 99))}
            with mock.patch.multiple("jadvolni._blocks", **few):
                for file in io.BytesIO(text), io.BufferedReader(io.BytesIO(text)):
                    self.assertEqual(events(file, **given), wanted, (text, given, few))
            ends.add(type(wanted[-1]) if wanted else None)
        self.assertEqual(ends, {int, dict, str, None})

    def test_rows_before_a_fault_come_first(self):
        text = b"1,x,2\n,y,3\n7,z,8\n"
        for threads, size, rows in (1, 99, 2), (1, 9, 9), (4, 99, 2), (3, 9, 1), (2, 99, 99):
            for wrong, place in ((b"7,,x\n9,,9\n", 20), (b"70000,,1\n", 21)):
                found = []
                with self.assertRaises(ParseError) as told:
                    for table in iter_table(io.BytesIO(text + wrong), COLUMNS, threads=threads,
                                            size=size, rows=rows):
                        found.append(table)
                        self.assertLessEqual(len(table["c"]), rows)
                self.assertEqual([it for table in found for it in table["c"].tolist()], [2, 3, 8])
                self.assertEqual([it for table in found for it in table["a"].present],
                                 [True, False, True])
                self.assertEqual((told.exception.row, told.exception.place), (3, place))

    def test_threads_in_blocks(self):
        text = b"".join(b'%d,"a\n,""%d",%d\n' % (k, k, -k) for k in range(5000))
        wanted = test_threads.lists(parse_table(text, COLUMNS, **QUOTED))
        for threads in 1, 2, 5:
            for size in 100, 5000, 1 << 20:
                told = []
                tables = list(iter_table(io.BytesIO(text), COLUMNS, **QUOTED, threads=threads,
                                         size=size, rows=999, progress=told.append))
                self.assertEqual([it for table in tables for it in table["c"].tolist()],
                                 wanted["c"])
                self.assertEqual(sum(told), len(text))
                self.path.write_bytes(text)
                told.clear()
                found = read_table(self.path, COLUMNS, **QUOTED, threads=threads, size=size,
                                   progress=told.append)
                self.assertEqual(test_threads.lists(found), wanted)
                self.assertEqual(sum(told), len(text))

    def test_a_file_that_fails_in_threads(self):
        found = []
        file = mock.Mock(read=mock.Mock(side_effect=[b"1\n2", b"2\n", OSError("no disk")]))
        with self.assertRaisesRegex(OSError, "no disk"):
            for table in iter_table(file, {"a": "u8"}, threads=3):
                found += table["a"].tolist()
        self.assertEqual(found, [1, 22])

    def test_one_byte_a_call_takes_linear_time(self):
        def seconds(size):
            text = b'1,"' + b"a\n" * (size // 2) + b'",2\n3,,4\n'
            start = time.process_time()
            for given in ({}, {"rows": 1}):
                found = [it for table in iter_table(Dribbling(text), COLUMNS, **QUOTED, **given)
                         for it in table["c"].tolist()]
                self.assertEqual(found, [2, 4])
            return time.process_time() - start

        seconds(100)
        self.assertLess(seconds(40_000), 40 * seconds(4_000) + 1)

    def test_a_slow_pipe_gives_each_row_as_it_comes(self):
        first, second = os.pipe()
        with open(first, "rb", buffering=0) as file, open(second, "wb", buffering=0) as pipe:
            tables = iter_table(file, COLUMNS, **QUOTED)
            for number in range(3):
                pipe.write(b'1,"a\n')
                pipe.write(b'b",%d\n' % number)
                self.assertEqual(next(tables)["c"].tolist(), [number])

    def test_files_without_rows(self):
        wanted = {"a": [[], []], "c": []}
        for text, given in (b"", {}), (b"\n\n", {"skips_empty_rows": True}):
            for threads in 1, 3:
                for size in 1, 99:
                    how = {"threads": threads, "size": size, **given}
                    found = read_table(io.BytesIO(text), COLUMNS, **how)
                    self.assertEqual(test_threads.lists(found), wanted)
                    self.assertEqual(list(iter_table(io.BytesIO(text), COLUMNS, **how)), [])
                found = parse_table(text, COLUMNS, threads=threads, **given)
                self.assertEqual(test_threads.lists(found), wanted)

    def test_a_file_that_is_cut_short_meanwhile(self):
        self.path.write_bytes(b"1\n" * 100_000)
        for threads in 1, 2:
            found = read_table(self.path, {"a": "u8"}, size=4096, threads=threads,
                               progress=lambda count: os.truncate(self.path, 4096))
            self.assertLessEqual(set(found["a"].tolist()), {1})
            self.path.write_bytes(b"1\n" * 100_000)

    def test_blocks_of_more_bytes_than_there_is_memory(self):
        self.path.write_bytes(b"1\n2\n")
        gzipped = gzip.compress(b"1\n2\n", mtime=0)
        for size in 10**12, sys.maxsize, 2**70:
            for given in {}, {"threads": 1}, {"threads": 3}, {"out": {"a": bytearray(2)}}:
                self.assertEqual(list(read_table(self.path, {"a": "u8"}, size=size, **given)["a"]),
                                 [1, 2])
            with gzip.open(io.BytesIO(gzipped)) as file, open(self.path, "rb") as other:
                self.assertEqual(list(read_table(file, {"a": "u8"}, size=size)["a"]), [1, 2])
                self.assertEqual([*map(list, iter_column(other, size=size))], [[1, 2]])

    def test_what_else_a_file_has_may_fail(self):
        """Its size is asked for, and nothing depends on it."""
        for wrong in NotImplementedError(), TypeError(), KeyError("none"):
            file = mock.Mock(read=io.BytesIO(b"1\n").read, fileno=mock.Mock(side_effect=wrong))
            self.assertEqual(read_table(file, {"a": "u8"})["a"].tolist(), [1])
        file = mock.Mock(read=io.BytesIO(b"1\n").read)  # (whose numbers are none)
        self.assertEqual(read_table(file, {"a": "u8"})["a"].tolist(), [1])

    def test_a_file_that_failed_is_let_go(self):
        gc.disable()
        self.addCleanup(gc.enable)
        for threads in 1, 3:
            file = Failing()
            kept = weakref.ref(file)
            try:
                read_table(file, {"a": "u8"}, threads=threads)
            except OSError:
                pass
            del file
            self.assertIsNone(kept())

    def test_a_map_is_asked_for(self):
        self.path.write_bytes(b"1,x,2\n")
        wanted = test_threads.lists(read_table(self.path, COLUMNS))
        with mock.patch("mmap.mmap", side_effect=AssertionError):
            self.assertEqual(test_threads.lists(read_table(self.path, COLUMNS)), wanted)
            self.assertRaises(AssertionError, read_table, self.path, COLUMNS, mmap=True)
        self.assertEqual(test_threads.lists(read_table(self.path, COLUMNS, mmap=True)), wanted)
        with self.assertRaisesRegex(TypeError, "file has to be a path where mmap is true"):
            read_table(io.BytesIO(b""), COLUMNS, mmap=True)

    def test_a_long_row_names_its_quote(self):
        text = b'1,"a",2\n3,"b"",4\n' + b'5,"c",6\n' * 9
        with self.assertRaises(ValueError) as told:
            list(iter_table(io.BytesIO(text), COLUMNS, **QUOTED, size=20))
        self.assertEqual(str(told.exception), "the row at byte 8 has more than 20 bytes: the quote"
                         " at byte 13 may lack the one that closes it, or size may have to be"
                         " larger")
        for given in {}, QUOTED:
            with self.assertRaisesRegex(ValueError, "the row at byte 6 has more than 9 bytes; si"):
                list(iter_table(io.BytesIO(b"1,x,2\n" + b"1" * 20), COLUMNS, **given, size=9))
        self.assertEqual(read_table(io.BytesIO(b"1,x,2\n" + b"0" * 20 + b",,7"), COLUMNS,
                                    size=9)["c"].tolist(), [2, 7])

    def test_a_file_that_is_no_text(self):
        """The message of its first row says what it is, and how it is opened."""
        text = b"1,x,2\n" * 99
        with zipfile.ZipFile(self.path, "w") as archive:
            archive.writestr(zipfile.ZipInfo("table"), text, zipfile.ZIP_DEFLATED)
        gzipped, zipped = gzip.compress(text, mtime=0), self.path.read_bytes()
        for content, hint in (
            (gzipped, "; this file is gzip-compressed: open it with gzip.open"),
            (zipped, "; this file is a zip archive: open what is in it with zipfile"),
            (text.decode().encode("utf-16"), "; the text may be UTF-16, and has to be UTF-8"),
        ):
            self.path.write_bytes(content)
            for more in {}, {"size": 9}, {"size": 9, "threads": 3}, {"mmap": True}:
                for columns in COLUMNS, {"a": None, "b": None, "c": "i32"}:
                    with self.assertRaises(ParseError) as caught:
                        read_table(self.path, columns, **more)
                    self.assertEqual(str(caught.exception)[-len(hint):], hint)
        with gzip.open(io.BytesIO(gzipped)) as file:
            self.assertEqual(len(read_table(file, COLUMNS)["c"]), 99)
        with zipfile.ZipFile(io.BytesIO(zipped)) as archive, archive.open("table") as file:
            self.assertEqual(len(read_table(file, COLUMNS)["c"]), 99)

    def test_a_later_row_is_no_file(self):
        """Bytes as those that begin a compressed file mean nothing behind the first row."""
        row = b"\x1f\x8b,x,2\n"
        for more in {}, {"threads": 2}, {"header": True}:
            bad = []
            parse_table(b"a,b,c\n" + row * 9, COLUMNS, on_error="skip", errors=bad, **more)
            self.assertEqual(len(bad), 9 if more.get("header") else 10)
            self.assertFalse([it for it in bad if "gzip" in str(it)])
        bad = []
        read_table(io.BytesIO(row * 9), COLUMNS, on_error="skip", errors=bad, size=20)
        self.assertEqual(["gzip" in str(it) for it in bad], [True] + 8 * [False])
        for text in "\x1f\udc8b", "":
            with self.assertRaises(ParseError) as caught:
                parse_table(text + ",\n", {"a": "u8", "b": "u8"})
            self.assertNotIn("gzip", str(caught.exception))

    def test_memory_grows_with_rows(self):
        self.path.write_bytes(b'"' + b"\n" * 20_000_000 + b'",7\n' + b"x,7\n" * 2)
        for module in "numpy", "array":
            for source, least in (("text", 8_000), ("file", 70_000)):
                command = [sys.executable, "-c", GROWTH, module, str(self.path), source]
                run = subprocess.run(command, capture_output=True, text=True, timeout=60)
                self.assertEqual(run.stderr, "")
                self.assertLess(int(run.stdout), least)


class ReadAhead(unittest.TestCase):
    """Blocks of a path, which threads read before they are asked for."""

    def rows(self, text, pread, size=16):
        """What is read of a path by three threads, with this call in the place of os.pread."""
        with tempfile.TemporaryDirectory() as folder:
            path = pathlib.Path(folder, "table")
            path.write_bytes(text)
            with mock.patch("os.pread", pread):
                return read_table(path, {"a": "u16"}, size=size, threads=3)["a"].tolist()

    def test_all_that_is_read(self):
        """Whether a call gives all that it is asked for, or less."""
        read, numbers = os.pread, list(range(500))
        text = b"".join(b"%d\n" % it for it in numbers)
        for most in 1, 3, 1 << 20:
            for size in 5, 64, len(text), len(text) + 1:
                self.assertEqual(numbers, self.rows(
                    text, lambda file, want, at: read(file, min(want, most), at), size))

    def test_a_large_size_takes_no_room_of_its_own(self):
        """A read makes room for what it asks for."""
        read, asked = os.pread, []

        def noted(file, want, at):
            asked.append(want)
            return read(file, want, at)

        self.assertEqual(self.rows(b"1\n" * 300_000, noted, 1 << 30), [1] * 300_000)
        self.assertLessEqual(max(asked), 600_000)

    def test_a_file_that_is_cut_or_grows(self):
        """What stands behind an end that was seen isn't read."""
        read, ends = os.pread, []

        def cut(file, want, at):
            return read(file, min(want, max(32 - at, 0)), at)

        def grown(file, want, at):
            ends.append(at)
            return b"" if at == 32 and ends.count(32) == 1 else read(file, want, at)

        text = b"1\n" * 100
        self.assertEqual(self.rows(text, cut), [1] * 16)
        self.assertEqual(self.rows(text, grown), [1] * 16)

    def test_a_file_that_cant_be_read(self):
        read = os.pread

        def failing(file, want, at):
            if at >= 48:
                raise OSError(5, "Input/output error")
            return read(file, want, at)

        with self.assertRaisesRegex(OSError, "Input/output error"):
            self.rows(b"1\n" * 100, failing)
        with self.assertRaises(ParseError) as caught:  # (what comes first is told)
            self.rows(b"1\nx\n" + b"1\n" * 100, failing)
        self.assertEqual(caught.exception.place, 2)


if __name__ == "__main__":
    unittest.main()
