"""Hostile calls: each answers, or raises an exception that says what is wrong.

tools/check_c.py runs them over an extension with sanitizers too, which see what a call touches.
"""

import array
import ctypes
import gc
import io
import itertools
import os
import threading
import unittest

import jadvolni
from jadvolni import (Column, Fixed, Format, Sparse, Table, Text, _core, iter_column, iter_table,
                      parse, parse_column, parse_front, parse_literal, parse_partial, parse_table,
                      parse_typed_literal, read_table)

# What a call may raise; every other exception is none that its page tells.
TOLD = (ValueError, TypeError, RuntimeError, OSError, LookupError, OverflowError, BufferError)
MOST = 2 ** 63 - 1


class Evil:
    """An object whose methods raise, or lie."""

    def fails(self, *_):
        raise RuntimeError("evil")

    __index__ = __getitem__ = __iter__ = __bool__ = __str__ = __repr__ = __eq__ = fails

    def __hash__(self):
        return 7

    def __len__(self):
        return 2 ** 62


class Named:
    """An object that has an attribute as types, formats and amounts have."""

    def __init__(self, **given):
        self.__dict__.update(given)


class Lying(str):
    """A text that says it is another."""

    def encode(self, *_):
        return b"other"

    def __len__(self):
        return 10 ** 6


class Reads:
    """A file that gives what it is told to."""

    def __init__(self, *given):
        self.given = list(given)

    def read(self, _):
        one = self.given.pop(0) if self.given else b""
        if isinstance(one, Exception):
            raise one
        return one


RELEASED = memoryview(bytearray(b"12"))
RELEASED.release()
TEXTS = (None, 7, 1.5, [], Evil(), object, RELEASED, array.array("d", [1.0]), Lying("12"), "\udc80",
         memoryview(b"1234").cast("I"), memoryview(b"123456")[::3], (ctypes.c_char * 0)(),
         b"9" * 10 ** 6, b"\0" * 100, b'"' * 99, b"\n" * 99, b"\xff" * 99)
TYPES = (None, 7, "u9", "", "u8\0", b"u8", Evil(), Named(name=Evil(), isnative=True), int, type,
         Lying("u8"), "u128", "x" * 10 ** 6, Fixed("u128", places=38), Fixed(places=0),
         *(Named(type="u8", _fixed=it) for it in (bytes(48), bytes(47), b"\xff" * 48, Evil())),
         Named(type=Evil(), _fixed=bytes(48)), Text(), Text(None), Text("utf-16"))
FORMATS = (7, "JSON", Evil(), Format, *(Named(_fields=it) for it in (
    b"", bytes(31), b"\xff" * 32, Evil(), None, "x" * 32)))
SUFFIXES = ({Evil(): "u8"}, {"": Evil()}, {7: "u8"}, {"\udc80": "u8"}, {"u" * 10 ** 6: "u8"}, [],
            None, {b"u": "u8"}, {"": None}, {str(k): "u8" for k in range(10 ** 4)})
COLUMNS = (None, [], 7, {}, {"a": Evil()}, {Evil(): "u8"}, {"a": None}, {None: "u8"},
           dict.fromkeys(range(10 ** 4), "u8"), {"a": Column(Text(), Format())},
           {"a": Column(Column("u8"))}, {"a": Column(None)}, {"a": Column("u8", Evil(), Evil())})
BYTES = array.array("B", bytes(9))
HOWS = (*({"separator": it} for it in ("", "ab", Evil(), b"\n", b"1", None, 7)),
        *({"widths": it} for it in ([], [-1], [MOST], [MOST, MOST], [2 ** 64], Evil(), [Evil()], 7,
                                    itertools.repeat(1, 9))),
        {"is_records": True}, {"is_records": True, "widths": [0]}, {"missing": Evil()},
        {"is_records": True, "widths": [MOST]}, {"missing": "x" * 10 ** 6}, {"has_quotes": Evil()},
        {"header": 1}, {"header": Evil()}, {"on_error": Evil()}, {"errors": []},
        *({"on_error": "skip", "errors": it} for it in (7, Evil(), repr, lambda it: 1 / 0 or it)),
        *({"threads": it} for it in (0, -1, MOST, 2 ** 64, Evil(), 999, None)))
OUTS = ({}, Evil(), 7, *({"a": it} for it in (
    b"123", array.array("B"), array.array("B", [0]), array.array("d", bytes(72)), Evil(), BYTES,
    memoryview(bytearray(9))[::2], memoryview(bytearray(9)).cast("B", (3, 3)), (BYTES, BYTES))))
FILES = (7, None, "no such file", "\0", "/", os.devnull, -1, 10 ** 9, b"bytes", io.StringIO("1\n"),
         *((lambda it=it: Reads(*it)) for it in (
             (7,), ("text",), (None,), (b"1\n", 7), (b"1\n", OSError("gone")), (bytearray(b"1\n"),),
             (b"1\n" * 10 ** 5,), (b"1", b"\n") * 50)))
BLOCKS = (*({"size": it} for it in (0, -1, MOST, 2 ** 64, Evil(), 1)),
          *({"rows": it} for it in (0, MOST, 2 ** 62, Evil(), 1)),
          *({"progress": it} for it in (7, Evil(), lambda it: 1 / 0 or it)))
HOW = (b",", False, False, False, False, b"", array.array("Q"), False, False)
GOOD = ((BYTES, None, "u8", None, None),)
ASKED = (b"1\n", 0, 2, True, HOW, GOOD, 0, 9, -1)
# What the extension is asked otherwise than its own module does: by the place of the argument.
OTHERWISE = ((1, 5), (1, -1), (2, 99), (2, -1), (6, 9), (6, MOST), (6, -1), (7, MOST), (7, -1),
             (8, MOST), (8, -7), (4, ()), (5, ()), (5, ((BYTES,),)), (0, None),
             *((5, (it,)) for it in ((b"read alone", None, "u8", None, None),
                                     (BYTES, b"x", "u8", None, None),
                                     (BYTES, None, "u64", None, None),
                                     (BYTES, None, "u8", None, bytearray()),
                                     (BYTES, None, None, None, bytearray()),
                                     (array.array("q", bytes(72)), None, None, None, b"alone"))),
             (4, (*HOW[:6], BYTES, *HOW[7:])),
             (4, (*HOW[:6], array.array("Q", [2 ** 64 - 1] * 2), *HOW[7:])))
TABLES = ({"a": Evil()}, {"a": 7}, {"a": [1]}, {"a": Sparse(7, 8)}, {7: BYTES}, {"a\0b": BYTES},
          {"a": Sparse(BYTES, b"")}, {"a": BYTES, "b": array.array("B", [1])}, {"\udc80": BYTES})


def calls():
    """The calls, with what each is named."""
    for k, text in enumerate(TEXTS):
        for call in parse, parse_front, parse_partial, parse_column, parse_literal:
            yield f"{call.__name__} of text {k}", lambda: call(text)
        yield f"table of text {k}", lambda: parse_table(text, {"a": "u8"}, has_quotes=True)
    for k, kind in enumerate(TYPES):
        for call in parse, parse_front, parse_column:
            yield f"{call.__name__} as type {k}", lambda: call("12", kind)
        yield f"table as type {k}", lambda: parse_table("12\n7", {"a": kind})["a"][1]
    for k, form in enumerate(FORMATS):
        yield f"parse under {k}", lambda: parse("1", "u8", form)
        yield f"column under {k}", lambda: parse_column("1", "u8", b"\n", form)
        yield f"table under {k}", lambda: parse_table("1", {"a": Column("u8", form)})
    for k, suffixes in enumerate(SUFFIXES):
        yield f"suffixes {k}", lambda: parse_typed_literal("12u", suffixes)
    for k, bound in enumerate((Evil(), 1.5, "1", MOST ** 9, -MOST ** 9, [], True)):
        yield f"least {k}", lambda: parse("5", "u8", min=bound)
        yield f"greatest {k}", lambda: parse("5", "u8", max=bound)
    yield from calls_on_tables()
    for k, (at, other) in enumerate(OTHERWISE):
        yield f"otherwise {k}", lambda: _core._parse_table(*ASKED[:at], other, *ASKED[at + 1:])
    for k, columns in enumerate(TABLES):
        yield f"array of {k}", lambda: Table(columns).__arrow_c_array__()
        yield f"stream of {k}", lambda: Table(columns).__arrow_c_stream__()


def calls_on_tables():
    """Those on tables and files."""
    for k, columns in enumerate(COLUMNS):
        yield f"columns {k}", lambda: parse_table("1\n2\n", columns)
        yield f"columns {k} by name", lambda: parse_table("a,b\n1,2\n", columns, header=True)
        yield f"columns {k} by blocks", lambda: [*iter_table(io.BytesIO(b"1\n2\n"), columns)]
    for k, how in enumerate(HOWS):
        yield f"table by {k}", lambda: parse_table("1\nx\n", {"a": "u8"}, **how)
        yield f"blocks by {k}", lambda: [*iter_table(io.BytesIO(b"1\nx\n"), {"a": "u8"}, **how)]
    for k, out in enumerate(OUTS):
        for kind in "u8", Column("u8", may_miss=True):
            yield f"out {k} of {kind}", lambda: parse_table("1\n2\n", {"a": kind}, out=out)
    for k, file in enumerate(FILES):
        def opened():
            return file() if callable(file) else file
        yield f"file {k}", lambda: read_table(opened(), {"a": "u8"})
        yield f"file {k} by threads", lambda: read_table(opened(), {"a": "u8"}, threads=3)
        yield f"file {k} by blocks", lambda: [*iter_table(opened(), {"a": "u8"}, header=True)]
        yield f"file {k} of a column", lambda: [*iter_column(opened(), "u8")]
    for k, how in enumerate(BLOCKS):
        yield f"of blocks {k}", lambda: [*iter_table(io.BytesIO(b"1\n" * 50), {"a": "u8"}, **how)]


class Hostile(unittest.TestCase):
    """What no call may do is to end the process, or to touch what isn't its own."""

    def test_each_call(self):
        count = 0
        for name, call in calls():
            with self.subTest(name):
                count += 1
                try:
                    call()
                except ZeroDivisionError:  # (of a function of the caller's)
                    pass
                except TOLD as wrong:
                    self.assertTrue(str(wrong))
        gc.collect()
        self.assertGreater(count, 400)

    def test_a_text_is_what_it_has_whatever_it_says(self):
        for threads in 1, 2:
            self.assertEqual(parse_table(Lying("12"), {"a": "u8"}, threads=threads)["a"][0], 12)
        self.assertEqual(parse_table(Lying("a\n12"), {"a": "u8"}, header=True)["a"][0], 12)

    def test_texts_that_change_meanwhile(self):
        """They give other rows, or an exception; no place beyond the text is read."""
        columns = {"a": Column("u8", may_miss=True), "b": Text()}

        def flips(text, turn):
            text[turn * 7919 % len(text)] = b'12,\n"x'[turn % 6]

        def floods(text, turn):
            text[:] = b"1,2\n" * (len(text) // 4) if turn % 2 else b"\n" * len(text)

        for change in flips, floods:
            text, stops = bytearray(b"1,2\n3,4\n" * 5000), []

            def changes():
                for turn in itertools.takewhile(lambda _: not stops, itertools.count()):
                    change(text, turn)

            worker = threading.Thread(target=changes)
            worker.start()
            try:
                for how in itertools.islice(itertools.cycle((
                        {}, {"threads": 4}, {"on_error": "skip"},
                        {"has_quotes": True, "threads": 3})), 40):
                    try:
                        parse_table(text, columns, **how)
                    except (jadvolni.ParseError, RuntimeError):
                        pass
            finally:
                stops.append(True)
                worker.join()

    def test_generators_that_are_given_up(self):
        for threads, end in itertools.product((1, 3), ("close", "throw", "forget")):
            blocks = iter_table(io.BytesIO(b"1\n2\n" * 9999), {"a": "u8"}, rows=3, size=64,
                                threads=threads)
            next(blocks)
            if end == "throw":
                self.assertRaises(KeyError, blocks.throw, KeyError("out"))
            elif end == "close":
                blocks.close()
            del blocks
            gc.collect()


if __name__ == "__main__":
    unittest.main()
