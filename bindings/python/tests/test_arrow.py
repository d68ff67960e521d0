"""Tests of tables out of the library: for NumPy, pandas and Arrow, without a copy."""

import gc
import importlib.util
import os
import pickle
import subprocess
import sys
import textwrap
import threading
import unittest
from array import array

import arrow_consumer as consumer
from jadvolni import Column, Sparse, Table, parse, parse_table

HAS = {name: importlib.util.find_spec(name) is not None
       for name in ("numpy", "pandas", "pyarrow", "polars", "duckdb")}
COLUMNS = {"day": "u16", "what": None, "cents": Column("i64", may_miss=True)}
TEXT = "1,rent,5\n2,,\n3,x,-7\n"
LISTS = {"day": [1, 2, 3], "cents": [5, None, -7]}


def address(values):
    """Where the numbers of an array are."""
    with memoryview(values) as view:
        return 0 if not len(view) else consumer.ctypes.addressof(
            consumer.ctypes.c_char.from_buffer(values))


class Capsules(unittest.TestCase):
    """Arrow's structs, read as their specification says."""

    def test_tables_and_columns(self):
        table = parse_table(TEXT, COLUMNS)
        for it in table, table.arrow():
            self.assertEqual(consumer.read(it.__arrow_c_array__(), consumer.table), LISTS)
            self.assertEqual(consumer.read(it.__arrow_c_array__(None), consumer.table), LISTS)
            self.assertEqual(consumer.tables(it.__arrow_c_stream__()), [LISTS])
            self.assertEqual(consumer.tables(it.__arrow_c_stream__(requested_schema=None)), [LISTS])
        for it in table["cents"], table.arrow("cents"):
            self.assertEqual(consumer.read(it.__arrow_c_array__(), consumer.column), LISTS["cents"])
        day = consumer.read(table.arrow("day").__arrow_c_array__(), consumer.column)
        self.assertEqual(day, LISTS["day"])

    def test_schemas(self):
        schema = consumer.taken(parse_table(TEXT, COLUMNS).__arrow_c_schema__(), consumer.Schema)
        children = [schema.children[k].contents for k in range(schema.n_children)]
        self.assertEqual([(it.name, it.format, it.flags) for it in children],
                         [(b"day", b"S", 0), (b"cents", b"l", 2)])
        self.assertEqual((schema.format, schema.name, schema.flags), (b"+s", b"", 0))
        consumer.release(schema)

    def test_each_type(self):
        for bits in 8, 16, 32, 64:
            half = 2**(bits - 1)
            for sign, least, most in ("u", 0, 2 * half - 1), ("i", -half, half - 1):
                for count in 0, 1, 7, 8, 9, 5000:
                    text = f"{least},{most}\n{most},\n" * count
                    kind = f"{sign}{bits}"
                    table = parse_table(text, {"a": kind, "ä": Column(kind, may_miss=True)})
                    wanted = {"a": [least, most] * count, "ä": [most, None] * count}
                    self.assertEqual(consumer.read(table.__arrow_c_array__(), consumer.table),
                                     wanted)

    def test_no_number_is_copied(self):
        table = parse_table(TEXT, COLUMNS)
        schema, values = table.arrow("cents").__arrow_c_array__()
        taken = consumer.taken(values, consumer.Array)
        self.assertEqual(taken.buffers[1], address(table["cents"].numbers))
        self.assertEqual(taken.buffers[0], address(table["cents"].bits))
        consumer.release(taken)

    def test_no_columns_and_no_rows(self):
        self.assertEqual(consumer.tables(parse_table("x\n", {"a": None}).__arrow_c_stream__()),
                         [{}])
        self.assertEqual(consumer.tables(parse_table("", COLUMNS).__arrow_c_stream__()),
                         [{"day": [], "cents": []}])

    def test_what_is_handed_out_stays(self):
        """It has the memory until it is released, whoever is gone before."""
        numbers = array("q", [5, 6])
        capsules = Table(a=numbers).__arrow_c_array__()
        with self.assertRaises(BufferError):
            numbers.append(7)
        schema = consumer.taken(capsules[0], consumer.Schema)
        moved = consumer.taken(capsules[1], consumer.Array)
        del capsules
        gc.collect()
        with self.assertRaises(BufferError):
            numbers.append(7)
        self.assertEqual(consumer.table(schema, moved), {"a": [5, 6]})
        consumer.release(moved)
        consumer.release(schema)
        numbers.append(7)

    def test_a_child_may_be_moved_out(self):
        first, second = array("q", [5]), array("q", [6])
        capsules = Table(a=first, b=second).__arrow_c_array__()
        whole, child = consumer.taken(capsules[1], consumer.Array), consumer.Array()
        consumer.ctypes.pointer(child)[0] = whole.children[1].contents
        whole.children[1].contents.release = consumer.RELEASE[consumer.Array](0)
        consumer.release(whole)
        first.append(7)
        with self.assertRaises(BufferError):
            second.append(7)
        consumer.release(child)
        second.append(7)

    def test_what_nobody_takes_is_let_go(self):
        numbers, bits = array("q", [5]), bytearray(b"\1")
        for call in ("__arrow_c_schema__", "__arrow_c_array__", "__arrow_c_stream__"):
            for _ in range(100):
                getattr(Table(a=Sparse(numbers, bits), b=numbers), call)()
        before = sys.getrefcount(numbers)
        stream = Table(a=numbers).__arrow_c_stream__()
        self.assertEqual(sys.getrefcount(numbers), before + 1)
        del stream
        self.assertEqual(sys.getrefcount(numbers), before)
        numbers.append(7), bits.append(7)

    def test_it_is_taken_once(self):
        table = parse_table(TEXT, COLUMNS)
        capsules, stream = table.__arrow_c_array__(), table.__arrow_c_stream__()
        for _ in range(2):
            self.assertEqual(consumer.read(table.__arrow_c_array__(), consumer.table), LISTS)
        consumer.read(capsules, consumer.table)
        self.assertRaises(consumer.Consumed, consumer.read, capsules, consumer.table)
        self.assertEqual(consumer.tables(stream), [LISTS])
        self.assertRaises(consumer.Consumed, consumer.tables, stream)

    def test_a_stream_that_is_left(self):
        numbers = array("q", [5])
        stream = consumer.taken(Table(a=numbers).__arrow_c_stream__(), consumer.Stream)
        self.assertTrue(stream.get_last_error(consumer.pointer(stream)))
        one = consumer.Array()
        self.assertEqual(stream.get_next(consumer.pointer(stream), consumer.pointer(one)), 0)
        consumer.release(stream)
        self.assertRaises(BufferError, numbers.append, 7)
        consumer.release(one)
        numbers.append(7)

    def test_other_threads(self):
        """They take and release it without Python's lock, which the calls get themselves."""
        table, found = parse_table(TEXT * 100, COLUMNS), []

        def take():
            for _ in range(200):
                found.append(consumer.tables(table.__arrow_c_stream__())[0]["cents"][:3])

        threads = [threading.Thread(target=take) for _ in range(4)]
        for it in threads:
            it.start()
        for it in threads:
            it.join()
        self.assertEqual(found, [LISTS["cents"]] * 800)

    def test_a_fork(self):
        table = parse_table(TEXT, COLUMNS)
        capsules, stream = table.__arrow_c_array__(), table.__arrow_c_stream__()
        child = os.fork()
        if not child:
            status = 1
            try:
                status = int(consumer.read(capsules, consumer.table) != LISTS
                             or consumer.tables(stream) != [LISTS])
            finally:
                os._exit(status)
        self.assertEqual(os.waitstatus_to_exitcode(os.waitpid(child, 0)[1]), 0)
        self.assertEqual(consumer.read(capsules, consumer.table), LISTS)
        self.assertEqual(consumer.tables(stream), [LISTS])

    def test_it_may_outlive_python(self):
        code = """
            import sys
            sys.path[:] = {!r}
            import arrow_consumer as consumer
            from jadvolni import parse_table
            table = parse_table("1\\n", {{"a": "u8"}})
            kept = [consumer.taken(table.__arrow_c_array__()[1], consumer.Array),
                    consumer.taken(table.__arrow_c_stream__(), consumer.Stream),
                    table.__arrow_c_array__(), table.__arrow_c_stream__()]
            sys.modules["kept"] = kept
        """.format(sys.path)
        run = subprocess.run([sys.executable, "-c", textwrap.dedent(code)], capture_output=True)
        self.assertEqual((run.returncode, run.stderr), (0, b""))

    def test_wrong_columns(self):
        for values in ([1, 2], None, "12", b"12"[::2].decode(), 7, memoryview(b"1234")[::2]):
            table = Table(a=values)
            for call in ("__arrow_c_schema__", "__arrow_c_array__", "__arrow_c_stream__"):
                with self.assertRaisesRegex(TypeError, "the column 'a' has to be an array of one"):
                    getattr(table, call)()
        two = Table(a=array("q", [1]), b=array("q", [1, 2]))
        with self.assertRaisesRegex(ValueError, r"of one length, and not of \[1, 2\]"):
            two.__arrow_c_stream__()
        for values in array("d", [1]), array("f", [1]):
            with self.assertRaisesRegex(ValueError, "Arrow has no numbers of the code"):
                Table(a=values).__arrow_c_array__()
        with self.assertRaisesRegex(ValueError, "the column 'a' has too few rows"):
            Table(a=Sparse(array("q", [0] * 9), bytearray(1))).__arrow_c_array__()
        with self.assertRaises(TypeError):
            Table(a=Sparse(array("q", [0] * 9), "12")).__arrow_c_array__()
        self.assertRaises(KeyError, parse_table(TEXT, COLUMNS).arrow, "what")
        for name, message in ((7, "names that are str, and not int"), ("a\0b", "without NUL"),
                              ("\udcff", "names of UTF-8")):
            with self.assertRaisesRegex((TypeError, ValueError), f"Arrow wants .*{message}"):
                Table({name: array("q", [1])}).__arrow_c_schema__()

    def test_a_table_is_a_dict(self):
        table = parse_table(TEXT, {"a": "u8", "b": None, "c": Column("i8", may_miss=True)})
        self.assertIsInstance(table, dict)
        self.assertEqual(list(table), ["a", "c"])
        again = pickle.loads(pickle.dumps(table))
        self.assertEqual(consumer.tables(again.__arrow_c_stream__()),
                         consumer.tables(table.__arrow_c_stream__()))


@unittest.skipUnless(HAS["numpy"], "NumPy isn't installed")
class Numpy(unittest.TestCase):
    """Arrays of NumPy, and its types."""

    def test_masked_arrays(self):
        import numpy

        table = parse_table("5,1\n,2\n", {"a": Column("i64", may_miss=True), "b": "u8"})
        found = table.to_numpy()
        self.assertEqual(found["a"].mean(), 5)
        self.assertEqual(found["a"].tolist(), [5, None])
        self.assertIs(type(found["b"]), numpy.ndarray)
        for name, ours in ("a", table["a"].numbers), ("b", table["b"]):
            self.assertTrue(numpy.shares_memory(found[name], ours))
        self.assertEqual(table["a"].to_numpy().sum(), 5)

    def test_its_types(self):
        import numpy

        for kind in (numpy.int64, numpy.dtype("u2"), numpy.dtype("uint8"), numpy.dtype("=i4"),
                     numpy.zeros(1, "i2").dtype):
            table = parse_table("7,8", {"a": kind, "b": Column(kind, may_miss=True)})
            self.assertEqual(table["a"].dtype, kind)
            self.assertEqual(table["b"].numbers.dtype, kind)
            self.assertEqual(parse("7", kind), 7)
        for kind in (numpy.dtype(">u2"), numpy.dtype("f8"), numpy.dtype("V2"), numpy.dtype("M8[s]"),
                     numpy.dtype([("int64", "i8")]), numpy.dtype("?")):
            with self.assertRaisesRegex(ValueError, "type has to be u8"):
                parse("7", kind)

        class Raising:
            @property
            def isnative(self):
                raise OSError("none")

        self.assertRaises(OSError, parse, "7", Raising())
        for kind in numpy.zeros(1), 7, b"u8", type("Named", (), {"isnative": True, "name": 5})():
            with self.assertRaisesRegex(TypeError, "type has to be a str such as 'u64'"):
                parse("7", kind)

    @unittest.skipUnless(HAS["pandas"], "pandas isn't installed")
    def test_frames(self):
        import numpy
        import pandas

        table = parse_table(TEXT, COLUMNS)
        frame = table.to_pandas()
        self.assertEqual([str(it) for it in frame.dtypes], ["uint16", "Int64"])
        self.assertEqual((frame["cents"].mean(), frame["cents"].isna().tolist()),
                         (-1, [False, True, False]))
        self.assertEqual(table["cents"].to_pandas().sum(), -2)
        self.assertTrue(numpy.shares_memory(frame["cents"].array._data, table["cents"].numbers))
        self.assertTrue(numpy.shares_memory(frame["day"].to_numpy(), table["day"]))
        self.assertEqual(parse_table("", COLUMNS).to_pandas().shape, (0, 2))
        self.assertTrue(pandas.isna(frame["cents"][1]))


@unittest.skipUnless(HAS["pyarrow"], "pyarrow isn't installed")
class Pyarrow(unittest.TestCase):
    """The same by pyarrow, polars and duckdb."""

    def test_pyarrow(self):
        import pyarrow

        table = parse_table(TEXT, COLUMNS)
        self.assertEqual(pyarrow.table(table.arrow()).to_pydict(), LISTS)
        self.assertEqual(pyarrow.RecordBatchReader.from_stream(table).read_all().to_pydict(), LISTS)
        self.assertEqual(pyarrow.array(table["cents"]).to_pylist(), LISTS["cents"])

    @unittest.skipUnless(HAS["polars"], "polars isn't installed")
    def test_polars(self):
        import polars

        table = parse_table(TEXT, COLUMNS)
        self.assertEqual(polars.DataFrame(table.arrow()).to_dict(as_series=False), LISTS)

    @unittest.skipUnless(HAS["duckdb"], "duckdb isn't installed")
    def test_duckdb(self):
        import duckdb
        import pyarrow

        rows = pyarrow.table(parse_table(TEXT, COLUMNS).arrow())
        self.assertEqual(duckdb.sql("select sum(cents) from rows").fetchone(), (-2,))
        del rows


if __name__ == "__main__":
    unittest.main()
