"""Tests of arguments: each wrong once, each with a message that names it, and no reference lost."""

import array
import ctypes
import gc
import mmap
import os
import subprocess
import sys
import tracemalloc
import unittest

from jadvolni import (Fixed, Format, FormatError, ParseError, Text, parse, parse_column,
                      parse_front, parse_partial, parse_table)

CALLS = (parse, parse_front, parse_partial, parse_column)


class Alike:
    """An object that has what formats have, or raises what it is given."""

    def __init__(self, fields):
        self.fields = fields

    @property
    def _fields(self):
        if isinstance(self.fields, BaseException):
            raise self.fields
        return self.fields


class Texts(unittest.TestCase):
    """What is a text, and what is none."""

    def test_contiguous_bytes(self):
        mapped = mmap.mmap(-1, 2)
        mapped[:] = b"12"
        for text in (
            bytearray(b"12"),
            memoryview(b"0123")[1:3],
            memoryview(b"12").cast("b"),
            memoryview(b"12").cast("c"),
            array.array("B", b"12"),
            array.array("b", b"12"),
            (ctypes.c_char * 2)(*b"12"),
            (ctypes.c_ubyte * 2)(*b"12"),
            mapped,
            type("Bytes", (bytes,), {})(b"12"),
            type("Text", (str,), {})("12"),
        ):
            with self.subTest(text=text):
                self.assertEqual(parse(text, "u8"), 12)
                self.assertEqual(parse_partial(text, "u8"), (12, 2))
                self.assertEqual(list(parse_column(text, "u8")), [12])

    def test_other_objects(self):
        texts = (ctypes.c_char * 3 * 2)((*b"12\0",), (*b"34\0",))
        for text, reason in (
            (12, "not int$"),
            (None, "not NoneType$"),
            ([b"12"], "not list$"),
            (memoryview(b"1234")[::2], "not memoryview, which isn't contiguous$"),
            (memoryview(b"1234")[::-1], "not memoryview, which isn't contiguous$"),
            (memoryview(b"1234").cast("B", (2, 2)), "not memoryview, which hasn't one dimension$"),
            (texts, "which hasn't one dimension$"),
            (ctypes.c_char(b"1"), "not c_char, which hasn't one dimension$"),
            (array.array("H", b"1234"), "not array, whose items aren't bytes$"),
            (memoryview(b"1234").cast("H"), "not memoryview, whose items aren't bytes$"),
            (memoryview(b"12").cast("?"), "not memoryview, whose items aren't bytes$"),
            ((ctypes.c_uint16 * 2)(0x3231, 0x3433), "whose items aren't bytes$"),
        ):
            for call in CALLS:
                wanted = f"^text has to be a str or contiguous bytes, and .*{reason}"
                with self.subTest(text=text), self.assertRaisesRegex(TypeError, wanted):
                    call(text, "u8")

    def test_arrays_of_no_items(self):
        self.assertRaises(TypeError, parse_column, array.array("H"))
        self.assertEqual(list(parse_column(array.array("B"))), [])

    def test_lone_surrogates(self):
        """Their bytes are no digits: a fault of the text, as of any other byte."""
        for text, place, shown in (("1\ud800", 1, b"1\xed\xa0\x80"), ("\udcff", 0, b"\xff"),
                                   ("12\udcff\ud800", 2, b"12\xed\xb3\xbf\xed\xa0\x80"),
                                   ("\udcc3\udca4", 0, "ä".encode())):
            with self.assertRaises(ParseError) as told:
                parse(text, "u8")
            self.assertEqual((told.exception.kind, told.exception.place), ("InvalidDigit", place))
            self.assertEqual(str(told.exception), f"invalid digit at byte {place}: {shown!r}")
            for call in parse_column, parse_front:
                if call is parse_column or place == 0:
                    self.assertRaises(ParseError, call, text, "u8")
        self.assertEqual(parse_front("12\udcff", "u8"), (12, 2))
        with self.assertRaisesRegex(ValueError, "separator has to be one byte, and not 3"):
            parse_column("1", "u8", "\ud800")

    def test_a_variable_that_is_no_text(self):
        code = "import jadvolni, os\ntry:\n    jadvolni.parse(os.environ['PORT'], 'u16')\n" \
               "except jadvolni.ParseError as error:\n    print(error)"
        run = subprocess.run([sys.executable, "-c", code], env={**os.environb, b"PORT": b"\xff80"},
                             capture_output=True, text=True)
        self.assertEqual((run.stdout, run.stderr), ("invalid digit at byte 0: b'\\xff80'\n", ""))

    def test_a_text_that_was_closed(self):
        view = memoryview(b"12")
        view.release()
        self.assertRaises(ValueError, parse, view)

    def test_a_text_can_be_changed_afterwards(self):
        for call in CALLS:
            for content in (b"12", b"1x"):
                text = bytearray(content)
                try:
                    call(text)
                except ParseError:
                    pass
                text.append(0)
        text = bytearray(b"1234")
        with self.assertRaises(TypeError), memoryview(text).cast("H") as view:
            parse(view)
        text.append(0)


class Arguments(unittest.TestCase):
    """Arguments beside the text."""

    def test_numbers_and_names_of_arguments(self):
        for call in CALLS:
            name = call.__name__
            for arguments, named, reason in (
                ((), {}, f"{name}\\(\\) needs the argument 'text'"),
                (("1",), {"text": "1"}, f"{name}\\(\\) was given 'text' twice"),
                (("1",), {"kind": "u8"}, f"{name}\\(\\) has no argument 'kind'"),
                (("1",), {"\ud800": "u8"}, f"{name}\\(\\) has no argument"),
                (("1", "u8", ",", None, None), {}, f"{name}\\(\\) takes at most "),
            ):
                with self.subTest(arguments=arguments, named=named):
                    with self.assertRaisesRegex(TypeError, f"^{reason}"):
                        call(*arguments, **named)

    def test_types(self):
        for call in CALLS:
            wanted = "^type has to be a str such as 'u64', and not int$"
            self.assertRaisesRegex(TypeError, wanted, call, "1", 8)
            for name in ("", "u7", "U8", "u8\0", "float", "ü8", "\ud800", "u8 " * 1000):
                with self.subTest(call=call.__name__, type=name):
                    wanted = "^type has to be u8, u16, .* or isize, and not '"
                    self.assertRaisesRegex(ValueError, wanted, call, "1", name)
        for other in (int, float, type("u7", (), {})):
            with self.subTest(type=other):
                wanted = "^type has to be u8, u16, .* or isize, and not <class '"
                self.assertRaisesRegex(ValueError, wanted, parse, "1", other)
        for other, wanted in (("text", "texts"), (str, "texts"), (Text, "texts"),
                              ("float64", "amounts"), (Fixed, "amounts")):
            with self.subTest(type=other):
                wanted = rf"^type has to be u8, .*: {wanted} .* the type jadvolni\.\w+\(.*\)$"
                self.assertRaisesRegex(ValueError, wanted, parse_table, "1", {"a": other})
        wanted = "^type has to have 64 bits or fewer in a column, and not u128$"
        self.assertRaisesRegex(ValueError, wanted, parse_column, "1", "u128")

    def test_types_by_other_names(self):
        for bits in (8, 16, 32, 64):
            for sign, least in (("u", 0), ("", -(2 ** (bits - 1)))):
                name = f"{sign}int{bits}"
                for kind in (name, type(name, (), {}), type("Text", (str,), {})(name)):
                    with self.subTest(type=kind):
                        self.assertEqual(parse(str(least), kind), least)
                        self.assertRaises(ParseError, parse, str(least - 1), kind)
                        self.assertEqual(list(parse_column(f"{least}\n1", kind)), [least, 1])

    def test_separators(self):
        for separator, size in ((b"", 0), (b"ab", 2), ("", 0), ("é", 2)):
            with self.subTest(separator=separator):
                wanted = f"^separator has to be one byte, and not {size}$"
                self.assertRaisesRegex(ValueError, wanted, parse_column, "1", "u8", separator)
        for separator in (44, None, array.array("H", [44])):
            wanted = "^separator has to be a str or contiguous bytes, and not "
            self.assertRaisesRegex(TypeError, wanted, parse_column, "1", "u8", separator)

    def test_rooms_of_several_dimensions(self):
        for shape in ([2, 2], [4, 1]):
            room = memoryview(bytearray(4)).cast("B", shape)
            self.assertRaises(ValueError, parse_table, "1\n2\n", {"a": "u8"}, out={"a": room})

    def test_formats(self):
        wanted = "^format has to be a jadvolni.Format or None, and not "
        others = (16, object(), Format, Alike("fields"), Alike(b"short"), Alike(bytes(24)),
                  Alike(bytes(33)))
        for call in CALLS:
            for format in (*others, Alike(AttributeError())):
                with self.subTest(format=format):
                    self.assertRaisesRegex(TypeError, wanted, call, "1", format=format)
            for error in (KeyboardInterrupt, MemoryError, ValueError):
                self.assertRaises(error, call, "1", format=Alike(error()))

    def test_bytes_of_formats(self):
        self.assertEqual(parse("1", "u8", Alike(b"\x0a" + bytes(31))), 1)
        reserved = Alike(b"\x0a" + bytes(30) + b"\x01")
        self.assertRaises(FormatError, parse, "1", "u8", reserved)


class References(unittest.TestCase):
    """What a call takes is given back."""

    def setUp(self):
        self.text, self.separator = bytearray(b"12,x"), bytearray(b",")
        self.wide = memoryview(b"1234").cast("H")
        self.name, self.format = "".join(["u", "16"]), Format(mantissa_radix=12)

    def calls(self):
        """Calls of every kind, right ones and wrong ones."""
        text, name, separator, format = self.text, self.name, self.separator, self.format
        for call, arguments in (
            (Format, ()),
            (parse, (str(2**127), "u128")),
            (parse, (str(-(2**127)), "i128", format)),
            (parse_front, (text, "i128")),
            (parse_partial, (text, "i128")),
            (parse_column, (text, "u128")),
            (parse_column, (b"12,13", name, b"ab")),
            (parse_column, (b"12,13", name, 5)),
            (parse_column, (b"12,13", name, self.wide)),
            (parse_column, (5, name, separator)),
            (parse_column, (self.wide, name, separator)),
            (parse, (text, name, format)),
            (parse, (b"12", name, format)),
            (parse_front, (text, name, format)),
            (parse_partial, (text, name, format)),
            (parse_column, (text, name, separator, format)),
            (parse_column, (b"12,13", name, separator, format)),
            (parse, (text, name, 5)),
            (parse, (text, name, Alike(b"short"))),
            (parse, (text, name, Alike(ValueError()))),
            (parse, (5, name, format)),
            (parse, (self.wide, name, format)),
            (parse, ("\ud800", name, format)),
            (parse, (text, separator)),
        ):
            try:
                call(*arguments)
            except (ValueError, TypeError):
                pass

    def test_references_stay(self):
        objects = (self.text, self.name, self.separator, self.format, self.format._fields)
        objects += (self.wide, ParseError, FormatError)
        self.calls()
        gc.collect()
        before = [sys.getrefcount(one) for one in objects]
        for _ in range(1000):
            self.calls()
        gc.collect()
        self.assertEqual([sys.getrefcount(one) for one in objects], before)

    def test_memory_stays(self):
        # The least object that each round lost would be 32,000 bytes.
        self.calls()
        tracemalloc.start()
        try:
            taken = []
            for rounds in (500, 2000):
                for _ in range(rounds):
                    self.calls()
                gc.collect()
                taken.append(tracemalloc.get_traced_memory()[0])
            self.assertLess(taken[1] - taken[0], 32_000)
        finally:
            tracemalloc.stop()


if __name__ == "__main__":
    unittest.main()
