"""Tests of columns that are read in blocks."""

import io
import time
import unittest

from jadvolni import Format, FormatError, ParseError, iter_column, parse_column

TEXT = b"12\n255\n0\n7"


class Failing(io.BytesIO):
    """A file whose second read fails."""

    reads = 0

    def read(self, size=-1):
        self.reads += 1
        if self.reads == 2:
            raise OSError("the device is gone")
        return super().read(size)


class Blocks(unittest.TestCase):
    """A file read in blocks is the column of its text."""

    def numbers(self, text, *arguments, **keywords):
        """All numbers of a file with this text."""
        arrays = list(iter_column(io.BytesIO(text), *arguments, **keywords))
        self.assertTrue(all(len(one) for one in arrays))
        return [number for one in arrays for number in one]

    def test_each_size_gives_the_whole(self):
        for size in range(3, 20):
            for text in (TEXT, TEXT + b"\n", b"", b"1", b"1\n"):
                with self.subTest(size=size, text=text):
                    whole = list(parse_column(text, "u8"))
                    self.assertEqual(self.numbers(text, "u8", size=size), whole)

    def test_a_fault_counts_over_all_blocks(self):
        text = b"1,22,333,4x,5,"
        for size in range(3, 20):
            with self.subTest(size=size), self.assertRaises(ParseError) as told:
                self.numbers(text, "i64", ",", size=size)
            error = told.exception
            self.assertEqual((error.kind, error.place, error.field, error.start),
                             ("InvalidDigit", 10, 3, 9))
            self.assertEqual(str(error), "invalid digit at byte 10, in field 4: b'4x'")

    def test_numbers_in_front_of_a_fault_stand(self):
        column = iter_column(io.BytesIO(b"1\n22\n333\nx\n"), size=5)
        self.assertEqual(list(next(column)), [1, 22])
        with self.assertRaises(ParseError):
            list(column)

    def test_a_long_field_is_refused(self):
        told = "^the field at byte 2 has more than 4 bytes; size may have to be larger$"
        self.assertEqual(self.numbers(b"0000\n1", size=4), [0, 1])
        with self.assertRaisesRegex(ValueError, told):
            self.numbers(b"1\n" + b"0" * 20, size=4)
        # It depends on where a block ends, for one of no more than two blocks.
        self.assertEqual(self.numbers(b"000001\n", size=4), [1])
        with self.assertRaisesRegex(ValueError, told):
            self.numbers(b"1\n000001\n", size=4)

    def test_one_byte_a_call_takes_linear_time(self):
        class Dribbling(io.BytesIO):
            def read(self, size=-1):
                return super().read(1)

        def seconds(size):
            start = time.process_time()
            found = list(iter_column(Dribbling(b"7\n" + b"0" * size + b"8\n9")))
            self.assertEqual([list(it) for it in found], [[7], [8], [9]])
            return time.process_time() - start

        seconds(100)
        self.assertLess(seconds(200_000), 40 * seconds(20_000) + 1)

    def test_a_file_that_fails(self):
        file = Failing(b"1\n22\n333\n")
        column = iter_column(file, size=5)
        self.assertEqual(list(next(column)), [1, 22])
        with self.assertRaisesRegex(OSError, "the device is gone"):
            next(column)

    def test_a_file_that_gives_less_than_is_asked(self):
        file = io.BytesIO(TEXT)
        file.read = lambda size: io.BytesIO.read(file, min(size, 2))
        self.assertEqual([list(one) for one in iter_column(file, "u8")], [[12], [255], [0], [7]])

    def test_files_that_give_no_bytes(self):
        with self.assertRaisesRegex(TypeError, 'open it with "rb"'):
            list(iter_column(io.StringIO("1\n")))
        waiting = io.BytesIO()
        waiting.read = lambda size: None
        with self.assertRaises(BlockingIOError):
            list(iter_column(waiting))

    def test_progress(self):
        for size in range(3, 20):
            told = []
            self.numbers(TEXT, "u8", size=size, progress=told.append)
            self.assertEqual((sum(told), max(told)), (len(TEXT), min(size, len(TEXT))))

        def stop(count):
            raise InterruptedError(count)

        column = iter_column(io.BytesIO(TEXT), size=3, progress=stop)
        self.assertEqual(list(next(column)), [12])
        self.assertRaises(InterruptedError, next, column)
        with self.assertRaisesRegex(TypeError, "^progress has to be a function or None, and not "):
            next(iter_column(io.BytesIO(TEXT), progress=7))

    def test_arguments(self):
        self.assertEqual(self.numbers(b"FF 10", "u16", " ", Format(mantissa_radix=16)), [255, 16])
        self.assertEqual(self.numbers(b"1", size=2**70), [1])
        self.assertEqual(self.numbers(b"1\x802", "u8", "\udc80"), [1, 2])
        for size in (0, -1):
            with self.assertRaisesRegex(ValueError, "size has to be 1 or more"):
                self.numbers(b"1", size=size)
        for size in ("5", None, 5.0):
            with self.assertRaisesRegex(TypeError, "size has to be an integer, and not"):
                self.numbers(b"1", size=size)
        wanted = r'^file has to be one opened by "rb", and not str: open\(path, "rb"\) opens one$'
        with self.assertRaisesRegex(TypeError, wanted):
            next(iter_column("numbers.txt"))
        for separator in (b"", b"ab"):
            with self.assertRaises(ValueError):
                self.numbers(b"1ab2", "u8", separator)
        for separator in (None, 10, [","]):
            with self.assertRaisesRegex(TypeError, "separator has to be a str or contiguous bytes"):
                self.numbers(b"1", "u8", separator)
        with self.assertRaises(ValueError):
            self.numbers(b"1", "u128")
        with self.assertRaises((FormatError, TypeError)):
            self.numbers(b"1", "u8", b",", 10)


if __name__ == "__main__":
    unittest.main()
