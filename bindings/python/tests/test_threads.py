"""Tests of tables that threads read: beside one thread, and misused."""

import io
import mmap
import os
import pathlib
import pickle
import random
import re
import signal
import sys
import tempfile
import threading
import time
import unittest
from array import array
from contextlib import contextmanager
from unittest import mock

import jadvolni
from jadvolni import (Column, Format, ParseError, Sparse, iter_table, parse_table,
                      read_table)
from jadvolni._pool import Pool

COLUMNS = {"a": Column("u8", may_miss=True), "b": None, "c": Column("i32", None, True), "d": "i16"}
PIECES = (b"1", b"-7", b"300", b" ", b",", b",", b"\n", b"\n", b"\r\n", b'"', b'"', b'"a,\n"')
NAMES = (b"", b"rent", b'"a,b"', b'"c\nd"', b'"\n\n"', b'""', b'"e""\nf"')
WRONG = (b"1,a,2", b"1,a,2,3,", b"1,a,,70000", b"1,a,,-70000", b'1,a"b,2,3', b"1,a,NA,3",
         b"1,,2,3\n")
FLAGS = ("has_returns", "has_quotes", "allows_blanks", "skips_empty_rows")


def lists(table):
    """The columns of a table as lists: their numbers, and the bits that they have."""
    return {name: [it.tolist() for it in values] if isinstance(values, Sparse) else values.tolist()
            for name, values in table.items()}


def fault_of(error):
    """All that an error says, with its message behind the name of a file."""
    said = re.search("(line|row) .*", str(error))[0]
    return (error.kind, error.row, error.column, error.place, error.line, error.name,
            error.row_start, error.row_stop, error.text, said)


def told(text, columns, **given):
    """The columns of a text as lists with their bits, or its fault."""
    try:
        table = parse_table(text, columns, **given)
    except ParseError as error:
        return fault_of(error)
    return lists(table)


def blocks_of(text, columns, **given):
    """How many rows are read of a text block by block, and how many bad ones, and the fault."""
    rows = bad = 0
    try:
        for table in jadvolni.iter_table(io.BytesIO(text), columns, **given):
            rows, bad = rows + len(table["d"]), bad + table.bad_rows
    except ParseError as error:
        return rows, bad, fault_of(error)
    return rows, bad, None


def random_row(chance, end):
    """A row, which mostly is well."""
    if chance.random() < 0.04:
        return chance.choice(WRONG) + end
    cells = (chance.choice((b"1", b"22", b'"3"', b"")), chance.choice(NAMES),
             chance.choice((b" ", b" -80000 ")), b"7")
    return b",".join(cells) + end if chance.random() < 0.9 else end


def random_text(chance, end):
    """Rows, or any bytes of those that have a meaning."""
    if chance.random() < 0.3:
        return b"".join(chance.choices(PIECES, k=chance.randrange(60)))
    text = b"".join(random_row(chance, end) for _ in range(chance.randrange(40)))
    return text if chance.random() < 0.7 else text[:-1]


class Threads(unittest.TestCase):
    """Tables that threads read."""

    def test_random_tables_beside_one_thread(self):
        chance = random.Random(1)
        kinds, tables = set(), 0
        for turn in range(2000):
            given = {flag: chance.random() < 0.9 for flag in FLAGS}
            given["missing"] = chance.choice((b"", b"", b"", b"NA"))
            text = random_text(chance, b"\r\n" if given["has_returns"] else b"\n")
            with mock.patch.dict(sys.modules, {"numpy": None} if turn % 2 else {}):
                wanted = told(text, COLUMNS, **given)
                for threads in (2, chance.randint(3, 16)):
                    self.assertEqual(told(text, COLUMNS, threads=threads, **given), wanted,
                                     (text, given, threads))
            tables += isinstance(wanted, dict) and len(wanted["d"]) > 4
            kinds.add(wanted[0] if isinstance(wanted, tuple) else None)
        self.assertGreater(tables, 200)
        self.assertEqual(len(kinds), 9)  # none, four of numbers and four of rows

    def test_each_cut(self):
        row = b'7,"a\n""\n,",-1,5\n'
        for count in (0, 1, 2, 9, 20):
            for end in (b"", b"7,b,,6"):
                text = b"\n" * 3 + row * count + b"\n" + end
                given = {"has_quotes": True, "skips_empty_rows": True}
                wanted = told(text, COLUMNS, **given)
                self.assertEqual(wanted["d"], [5] * count + [6] * bool(end))
                for threads in (1, 2, 3, 4, 7, 30):
                    self.assertEqual(told(text, COLUMNS, threads=threads, **given), wanted)

    def test_the_first_of_several_faults(self):
        rows = [b"1\n"] * 1000
        for wrong in (0, 1, 499, 999):
            text = b"".join([*rows[:wrong], b"256\n", *rows[wrong + 1:-1], b"x\n"])
            for threads in (1, 2, 7, 16):
                with self.assertRaises(ParseError) as caught:
                    parse_table(text, {"a": "u8"}, threads=threads)
                fault = caught.exception
                self.assertEqual((fault.row, fault.place), (wrong, 2 * wrong + 2))

    def test_an_odd_quote(self):
        """It leaves the rest of a text within quotes: one row, which one thread reads."""
        text = b"1,a,2,3\n" * 50 + b'1,"a,2,3\n' + b"1,a,2,3\n" * 50
        for threads in (1, 2, 16):
            fault = told(text, COLUMNS, has_quotes=True, threads=threads)
            self.assertEqual(fault[:4], ("MisplacedQuote", 50, 1, 402))

    def test_texts_of_each_kind(self):
        text = b"1,x,2,3\n4,y,5,6\n" * 9
        wanted = told(text, COLUMNS)
        for threads in (2, 5):
            for given in (text.decode(), bytearray(text), memoryview(text), array("b", text)):
                self.assertEqual(told(given, COLUMNS, threads=threads), wanted)
            self.assertEqual(told("1,ä,2,3\n1,é,2,3\n", COLUMNS, threads=threads)["d"], [3, 3])
            self.assertEqual(told(b"", COLUMNS, threads=threads), told(b"", COLUMNS))
            self.assertEqual(told(b"1,x,2,3", COLUMNS, threads=threads)["d"], [3])
            self.assertEqual(told(b"1,x,2,3", COLUMNS, threads=10**30)["d"], [3])
            self.assertEqual(told(b"x\n" * 9, {"a": None}, threads=threads), {})

    def test_lines_of_a_view_of_characters(self):
        """It equals no bytes, and its lines are counted as those of bytes."""
        text = b"1,a,2,3\n" * 50 + b"1,a,x,3\n" + b"1,a,2,3\n" * 50
        for given in (text, memoryview(text).cast("c"), memoryview(text).cast("b")):
            for threads in (1, 2, 16):
                fault = told(given, COLUMNS, has_quotes=True, threads=threads)
                self.assertEqual(fault[4], 50)
                self.assertEqual(fault[-1][:7], "line 51")

    def test_files(self):
        with tempfile.TemporaryDirectory() as folder:
            path = pathlib.Path(folder, "table")
            path.write_bytes(b"1\n" * 1000)
            self.assertEqual(read_table(path, {"a": "u8"}, threads=3)["a"].tolist(), [1] * 1000)
            path.write_bytes(b"1\n" * 1000 + b"x\n")
            with self.assertRaises(ParseError) as caught:  # (and not that the map has views)
                read_table(path, {"a": "u8"}, threads=3)
            self.assertEqual((caught.exception.row, caught.exception.place), (1000, 2000))
            with open(path, "rb") as file, mmap.mmap(file.fileno(), 8, prot=mmap.PROT_READ) as text:
                self.assertEqual(parse_table(text, {"a": "u8"}, threads=2)["a"].tolist(), [1] * 4)

    def test_threads_for_a_path(self):
        """Where none are asked for, each core has one, if there is a block for each."""
        columns, text = {"a": "u8"}, b"1\n" * 500 + b"x\n" * 7 + b"2\n" * 500
        with tempfile.TemporaryDirectory() as folder:
            path = pathlib.Path(folder, "table")
            path.write_bytes(text)
            wanted = told(text, columns, on_error="skip")
            out = {"a": array("B", [0] * 1007)}
            for size, more, threads in ((100, {}, 8), (300, {}, 6), (1500, {}, None),
                                        (100, {"threads": 1}, None), (100, {"threads": 3}, 3),
                                        (100, {"threads": 10**30}, 1024),
                                        (100, {"out": out}, None), (100, {"mmap": True}, None)):
                bad = []
                with self.pools() as found:
                    table = read_table(path, columns, size=size, on_error="skip", errors=bad,
                                       **more)
                self.assertEqual(found, [] if threads is None else [threads])
                self.assertEqual((lists(table), table.bad_rows), (wanted, 7))
                self.assertEqual([it.row for it in bad], [*range(500, 507)])
            with self.pools() as found, open(path, "rb") as file:
                self.assertEqual(lists(read_table(file, columns, size=9, on_error="skip")), wanted)
                with self.assertRaises(ParseError) as caught:
                    read_table(path, columns, size=9)
            self.assertEqual((found, caught.exception.row, caught.exception.line), ([8], 500, 500))

    def test_many_threads(self):
        """A call has a bounded number of them, whatever it is asked for."""
        text = b"1\n" * 2000
        with self.pools() as found:
            self.assertEqual(sum(parse_table(text, {"a": "u8"}, threads=10**30)["a"]), 2000)
            tables = iter_table(io.BytesIO(text), {"a": "u8"}, threads=10**30, size=90)
            self.assertEqual(sum(len(it["a"]) for it in tables), 2000)
        self.assertEqual(found, [1024, 1024])

    def test_few_rows_of_many_columns(self):
        """Their numbers are copied without a call of the pool for each column."""
        columns = {f"c{k}": Column("u8", may_miss=k % 3 == 0) for k in range(500)}
        text = (",".join(map(str, range(100, 200))) * 5 + "\n").replace("199100", "199,100") * 60
        with tempfile.TemporaryDirectory() as folder:
            path = pathlib.Path(folder, "table")
            path.write_text(text)
            with mock.patch.object(Pool, "submit", autospec=True, side_effect=Pool.submit) as made:
                found = read_table(path, columns, threads=3, size=10_000)
        self.assertEqual(lists(found), told(text, columns))
        self.assertLess(made.call_count, 60)

    def test_a_pipe_by_its_path(self):
        """One thread reads it, since nobody knows how many blocks it has."""
        reads, writes = os.pipe()
        self.addCleanup(os.close, reads)
        os.write(writes, b"1\nx\n" * 999)
        os.close(writes)
        with self.pools() as found:
            table = read_table(f"/dev/fd/{reads}", {"a": "u8"}, size=90, on_error="skip")
        self.assertEqual((found, len(table["a"]), table.bad_rows), ([], 999, 999))

    @contextmanager
    def pools(self):
        """How many threads each pool may have, on a machine of eight cores."""
        found, make = [], jadvolni._threads.Pool

        def pool(most):
            found.append(most)
            return make(most)

        with mock.patch("jadvolni._threads.Pool", pool), \
                mock.patch("jadvolni._tables.Pool", pool), \
                mock.patch("os.sched_getaffinity", lambda _: set(range(8))):
            yield found

    def test_as_many_as_the_system_starts(self):
        """Where it starts fewer threads than were asked for, these read all."""
        text = b"1,a,2,3\n" * 99 + b"1,x\n" + b"1,a,2,3\n" * 99
        start = threading.Thread.start
        for most in 0, 1, 2:
            started = []

            def limited(thread):
                if len(started) == most:
                    raise RuntimeError("can't start new thread")
                started.append(thread)
                start(thread)

            for given in {"on_error": "skip"}, {}:
                with mock.patch("threading.Thread.start", limited):
                    started.clear()
                    found = told(text, COLUMNS, threads=4, **given)
                    self.assertEqual(len(started), most)
                    started.clear()
                    tables = blocks_of(text, COLUMNS, threads=4, size=60, **given)
                    self.assertEqual(len(started), most)
                self.assertFalse([it for it in started if it.is_alive()])
                self.assertEqual(found, told(text, COLUMNS, **given))
                self.assertEqual(tables, blocks_of(text, COLUMNS, size=60, **given))

    def test_arrays_of_the_caller(self):
        columns = {"a": Column("u8", may_miss=True), "b": "i64"}
        text = b"1,2\n\n,3\n" * 5
        for threads in (1, 2, 4, 16):
            numbers, bits, others = array("B", [9] * 16), bytearray(2), array("q", [9] * 16)
            out = {"a": (numbers, bits), "b": others}
            table = parse_table(text, columns, skips_empty_rows=True, out=out, threads=threads)
            self.assertEqual(table["a"].numbers.tolist(), [1, 0] * 5)
            self.assertEqual(table["b"].tolist(), [2, 3] * 5)
            self.assertEqual((numbers[:10].tolist(), others[15], bits), ([1, 0] * 5, 9, b"\x55\1"))
            with self.assertRaises(ParseError) as caught:
                parse_table(text + b"1,x\n", columns, skips_empty_rows=True, out=out,
                            threads=threads)
            numbers.append(7), others.append(7), bits.append(7)  # (no buffer is kept)
            self.assertEqual(caught.exception.row, 10)

    def test_wrong_arrays_of_the_caller(self):
        """They are refused as in one thread, also those that only two parts would share."""
        whole = bytearray(60)
        with memoryview(whole) as view:
            for first, second in ((view[:20], view[10:30]), (view[:20], view[19:39]),
                                  (view[:20], bytes(20)), (view[:20], bytearray(9)),
                                  (view[:40:2], bytearray(20)), (view[:20], array("H", [0] * 20)),
                                  (view[:20], None), ((view[:20], view[30:]), view[30:50])):
                given = {"out": {"a": first, "b": second}}
                with self.assertRaises(Exception) as wanted:
                    parse_table(b"1,2\n" * 20, {"a": "u8", "b": "u8"}, **given)
                with self.assertRaises(type(wanted.exception)) as found:
                    parse_table(b"1,2\n" * 20, {"a": "u8", "b": "u8"}, threads=4, **given)
                self.assertEqual(str(found.exception), str(wanted.exception))
        self.assertEqual(bytes(whole), bytes(60))
        text = memoryview(bytearray(b"1\n" * 20))
        with self.assertRaisesRegex(ValueError, "memory of its own"):
            parse_table(text, {"a": "u8"}, out={"a": text[20:]}, threads=4)

    def test_wrong_arguments(self):
        for threads in (0, -1):
            with self.assertRaisesRegex(ValueError, "threads has to be 1 or more, and not"):
                parse_table(b"1", {"a": "u8"}, threads=threads)
        for threads in ("2", None, 2.5, [2]):
            with self.assertRaisesRegex(TypeError, "threads has to be an integer, and not"):
                parse_table(b"1", {"a": "u8"}, threads=threads)
        for text, columns, given in (
            (7, {"a": "u8"}, {}), (b"1", {"a": "u7"}, {}), (b"1", {"a": Column("u8", "hex")}, {}),
            (array("H", [1]), {"a": "u8"}, {}), (b"1", {"a": "u8"}, {"separator": ";;"}),
            (b"1", {"a": "u8"}, {"missing": None}), ("\ud800", {"a": "u8"}, {}),
        ):
            with self.assertRaises((TypeError, ValueError)) as wanted:
                parse_table(text, columns, **given)
            with self.assertRaises(type(wanted.exception)) as found:
                parse_table(text, columns, threads=3, **given)
            self.assertEqual(str(found.exception), str(wanted.exception))

    def test_a_buffer_that_is_released(self):
        text = bytearray(b"1\n" * 20)
        view = memoryview(text)
        self.assertEqual(parse_table(view, {"a": "u8"}, threads=4)["a"].tolist(), [1] * 20)
        view.release()
        self.assertRaises(ValueError, parse_table, view, {"a": "u8"}, threads=4)
        text[3:3] = b"x"
        with self.assertRaises(ParseError) as caught:
            parse_table(text, {"a": "u8"}, threads=4)
        text.append(7)  # (no buffer is kept)
        self.assertEqual(caught.exception.place, 3)

    def test_an_interrupt_is_told(self):
        """It isn't hidden by the memory that a thread still has when it comes."""
        first = threading.Lock()

        def parse(*asked):
            columns, rows = asked[5], asked[7]
            held = pickle.PickleBuffer(columns[0][0])
            if rows and first.acquire(blocking=False):
                time.sleep(0.2)  # (until all threads have started)
                os.kill(os.getpid(), signal.SIGINT)
                time.sleep(0.2)
            held.release()
            return jadvolni._core._parse_table(*asked)

        # (In a shell's background it is ignored.)
        before = signal.signal(signal.SIGINT, signal.default_int_handler)
        self.addCleanup(signal.signal, signal.SIGINT, before)
        with mock.patch("jadvolni._reader._parse_table", parse):
            with self.assertRaises(KeyboardInterrupt):
                parse_table(b"1\n" * 20, {"a": "u8"}, threads=4)

    def test_a_second_interrupt_is_told(self):
        """It comes while threads are waited for, and they still have the text."""
        reads, done, ended = threading.Event(), threading.Event(), []

        def parse(*asked):
            if asked[7]:
                held = pickle.PickleBuffer(asked[0])
                reads.set()
                done.wait(60)
                held.release()
            return jadvolni._core._parse_table(*asked)

        class Interrupted(Pool):
            def map(self, function, given):
                calls = [self.submit(function, it) for it in given]
                if function.__name__ == "rows_of" and reads.wait(60):
                    raise KeyboardInterrupt
                return [it.result() for it in calls]

            def __exit__(self, *_):
                ended.append(super().__exit__)
                raise KeyboardInterrupt

        with mock.patch("jadvolni._reader._parse_table", parse):
            with mock.patch("jadvolni._threads.Pool", Interrupted):
                with self.assertRaises(KeyboardInterrupt):
                    parse_table(b"1\n" * 20, {"a": "u8"}, threads=4)
            done.set()
            ended.pop()()

    def test_a_text_that_changes_meanwhile(self):
        """A fault is reported as a thread has found it."""
        text = bytearray(b"1\n" * 9 + b"x\n" + b"1\n" * 9)
        parse = jadvolni._core._parse_table

        def heal(*asked):
            found = parse(*asked)
            if found[3]:
                text[18:19] = b"2"
            return found

        with mock.patch("jadvolni._reader._parse_table", heal):
            with self.assertRaisesRegex(ParseError, '^line 10, "a": "x": invalid digit at byte'):
                parse_table(text, {"a": "u8"}, threads=3)
        self.assertEqual(sum(parse_table(text, {"a": "u8"}, threads=3)["a"]), 20)

    def test_a_text_that_gets_more_rows_meanwhile(self):
        count = jadvolni._core._row_count

        def fewer(*asked):
            return count(*asked) - 1

        for threads in 1, 3:
            with mock.patch("jadvolni._tables._row_count", fewer), \
                    mock.patch("jadvolni._threads._row_count", fewer):
                with self.assertRaisesRegex(RuntimeError, "the text was changed while it was read"):
                    parse_table(b"1\n" * 20, {"a": "u8"}, threads=threads,
                                out={"a": array("B", [0] * 20)})
        with mock.patch("jadvolni._tables._row_count", fewer):
            with self.assertRaisesRegex(RuntimeError, "the text was changed while it was read"):
                parse_table(b"1\n" * 20, {"a": "u8"}, threads=3)

    def test_memory_is_given_back(self):
        text = b"1\n" * 20
        out, form = array("B", [9] * 20), Format(mantissa_radix=16)
        kept = text, out, form
        before = [sys.getrefcount(it) for it in kept]
        for given in [text, text + b"x", 7] * 50:
            try:
                parse_table(given, {"a": Column("u8", form)}, out={"a": out}, threads=4)
            except (ParseError, TypeError, ValueError):
                pass
        del given
        self.assertEqual([sys.getrefcount(it) for it in kept], before)


if __name__ == "__main__":
    unittest.main()
