"""Tests of the examples, as commands: right files, wrong ones, and inputs that are hardly any."""

import contextlib
import functools
import importlib.util
import os
import pathlib
import re
import resource
import shutil
import signal
import subprocess
import sys
import tempfile
import threading
import time
import unittest

EXAMPLES = pathlib.Path(__file__).resolve().parents[3] / "examples" / "columns"
# Each example with the words after its file.
COMMANDS = (("ledger.py",), ("records.py",), ("data.py", "c"), ("big_file.py", "3"), ("total.py",),
            ("to_sqlite.py", ":memory:"))
# What each reads 3 from.
CONTENTS = ("a 1\nb 2\n", "  7rent     1  8food     2", "n,c\na,1\nb,2\n", "1\n2\n", "1\n2\n",
            "1;a;2\n2;b;\n")
SAID = ("3\n", "3\n", "c 3, bad rows: 0\n", "2 numbers, sum 3\n", "2 numbers, sum 3\n",
        "2 rows\n")

# What a message says of an empty row.
EMPTY = "; the row is empty: skips_empty_rows may have to be True"


def answer_of(name, path, *words, **settings):
    """What an example says of a path: its status, its output and its errors, without the path."""
    command = [sys.executable, str(EXAMPLES / name), str(path), *words]
    settings = {"stdout": subprocess.PIPE, "stderr": subprocess.PIPE, **settings}
    run = subprocess.run(command, text=True, timeout=60, **settings)
    return run.returncode, run.stdout, re.sub(f"^{re.escape(str(path))}[:,] ", "", run.stderr or "")


def line_of(told):
    """The line that reports a fault, where a byte is one of a cell."""
    return f"{told} of the cell\n" if '": ' in told else f"{told}\n"


@contextlib.contextmanager
def postgres(folder):
    """A PostgreSQL that listens on a socket in a folder alone: a call for its SQL and input."""
    # It doesn't run as root.
    as_user = {"user": "nobody"} if os.geteuid() == 0 else {}
    data = folder / "postgres"
    data.mkdir()
    os.chmod(folder, 0o755)
    if as_user:
        shutil.chown(data, "nobody")
    settings = {"stdout": subprocess.DEVNULL, "stderr": subprocess.DEVNULL, "cwd": "/", **as_user}
    made = ["initdb", "-D", data / "db", "-A", "trust", "-U", "user", "-N"]
    subprocess.run(made, check=True, timeout=120, **settings)
    words = ["-D", data / "db", "-k", data, "-c", "listen_addresses=", "-c", "fsync=off"]
    server = subprocess.Popen(["postgres", *words], **settings)

    def psql(command, given=b""):
        return subprocess.run(["psql", "-h", data, "-U", "user", "-qAtc", command, "postgres"],
                              input=given, timeout=60, check=True, stdout=subprocess.PIPE,
                              stderr=subprocess.DEVNULL).stdout

    try:
        ready = ["pg_isready", "-h", data, "-U", "user"]
        while server.poll() is None and subprocess.run(ready, **settings).returncode:
            time.sleep(0.1)
        yield psql
    finally:
        server.terminate()
        server.wait(60)


class Case(unittest.TestCase):
    """A case that gives examples their input."""

    def setUp(self):
        folder = tempfile.TemporaryDirectory()
        self.addCleanup(folder.cleanup)
        self.folder = pathlib.Path(folder.name)

    def answer(self, name, content, *words):
        """What an example says of a file with this content."""
        path = self.folder / "input"
        path.write_bytes(content)
        return answer_of(name, path, *words)


class Ledger(Case):
    """ledger.py."""

    def test_right_files(self):
        for content, total in (
            (b"rent -80000\nfood 1200\n", -78800),
            (b"rent -80000\nfood 1200", -78800),
            (b"", 0),
            (b"a\0b 7\n", 7),
            (b"a 9223372036854775807\nb 1", 2**63),
            (b"x" * 100_000 + b" 7\n", 7),
            (b"zeros " + b"0" * 100_000 + b"7\n", 7),
            (b"rent 7\n" * 500_000 + b"b 1", 3_500_001),
        ):
            with self.subTest(content=content[:40]):
                self.assertEqual(self.answer("ledger.py", content), (0, f"{total}\n", ""))

    def test_wrong_files(self):
        for content, told in (
            (b"rent -80000\nfood 12x\nwine x\n", 'line 2, "cents": "12x": invalid digit at byte 2'),
            (b"rent 1\r\nfood 2\r\n", r'line 1, "cents": "1\r": invalid digit at byte 1'),
            (b"rent 1\rfood 2", r'line 1, "cents": "1\rfood": invalid digit at byte 1'),
            (b"rent 1\0002\n", r'line 1, "cents": "1\x002": invalid digit at byte 1'),
            (b"\n", f'line 1: too few cells, none for "cents"{EMPTY}'),
            (b"a 1\n\n", f'line 2: too few cells, none for "cents"{EMPTY}'),
            (b"a 1\nb ", 'line 2, "cents": "": missing digit at byte 0'),
            (b"two words 7\n", 'line 1, "cents": "words": invalid digit at byte 0'),
            (b"a 9223372036854775808",
             'line 1, "cents": "9223372036854775808": overflow at byte 18'),
            (b"a 1\n" * 500_000 + b"b x", 'line 500001, "cents": "x": invalid digit at byte 0'),
            (b"a 1\n" + b"b" * 3_000_000,
             "the row at byte 4 has more than 1048576 bytes; size may have to be larger"),
        ):
            with self.subTest(content=content[:40]):
                self.assertEqual(self.answer("ledger.py", content), (1, "", line_of(told)))


class Records(Case):
    """records.py."""

    def test_right_files(self):
        for content, total in (
            (b"365rent-80000 36food  1200", -78800),
            (b"365rent-80000", -80000),
            (b"", 0),
            (b"  7\n,;\0\t    7", 7),
            (b"  7rent     7" * 500_000, 3_500_000),
        ):
            with self.subTest(content=content[:40]):
                self.assertEqual(self.answer("records.py", content), (0, f"{total}\n", ""))

    def test_wrong_files(self):
        record = b"365rent-80000"
        for content, told in (
            (record + b"\n", 'row 2: too few cells, none for "day"; the row is only a line end, '
             "and records have none"),
            (record + record[:12], 'row 2: too few cells, none for "cents"; the row has 12 of the '
             "13 bytes of its widths"),
            (record + b"\n" + record, r'row 2, "day": "\n36": invalid digit at byte 0'),
            (b"365rent-8000x", 'row 1, "cents": "-8000x": invalid digit at byte 5'),
            (b"365rent-8\n000", r'row 1, "cents": "-8\n000": invalid digit at byte 2'),
            (b"365rent      ", 'row 1, "cents": "      ": missing digit at byte 6'),
            (record * 500_000 + record[:5], 'row 500001: too few cells, none for "what"; the row '
             "has 5 of the 13 bytes of its widths"),
        ):
            with self.subTest(content=content[:40]):
                self.assertEqual(self.answer("records.py", content), (1, "", line_of(told)))


class CopyBinary(Case):
    """copy_binary.py."""

    def test_wrong_files(self):
        for content, told in (
            (b"1;rent;x\n", 'line 1, "cents": "x": invalid digit at byte 0'),
            (b"1;rent;-1\n65536;a;2\n", 'line 2, "day": "65536": overflow at byte 4'),
            (b"1;a;1\n" * 300_000 + b"1;a\n", 'line 300001: too few cells, none for "cents"'),
            (b"1;rent;\n;a;2\n", 'line 2, "day": "": missing digit at byte 0'),
            (b"1;rent; \n", 'line 1, "cents": " ": invalid digit at byte 0'),
        ):
            with self.subTest(content=content[:40]):
                path = self.folder / "input"
                path.write_bytes(content)
                command = [sys.executable, EXAMPLES / "copy_binary.py", path]
                run = subprocess.run(command, capture_output=True, timeout=60)
                said = f"{path}, {line_of(told)}"
                self.assertEqual((run.returncode, run.stderr.decode()), (1, said))
                self.assertEqual(run.stdout[-2:], b"\0\0")

    def test_a_full_device(self):
        path = self.folder / "input"
        path.write_bytes(b"1;a;1\n")
        with open("/dev/full", "wb") as full:
            command = [sys.executable, EXAMPLES / "copy_binary.py", path]
            run = subprocess.run(command, stdout=full, stderr=subprocess.PIPE, timeout=60)
        self.assertNotEqual(run.returncode, 0)
        self.assertEqual(run.stderr.decode().splitlines()[0],
                         "standard output: No space left on device")

    @unittest.skipUnless(shutil.which("initdb"), "there is no PostgreSQL on the PATH")
    def test_postgres(self):
        """PostgreSQL, started here on a socket of its own, has the same rows, and NULLs."""
        with postgres(self.folder) as psql:
            psql("CREATE TABLE ledger (day integer, cents bigint)")
            rows = [(k % 366, 7919 * k - 4 * 10**9 if k % 7 else "") for k in range(1_000_000)]
            text = "".join(f"{day};n{day};{cents}\n" for day, cents in rows)
            (self.folder / "input").write_text(text)
            given = [sys.executable, EXAMPLES / "copy_binary.py", self.folder / "input"]
            copied = subprocess.run(given, stdout=subprocess.PIPE, timeout=60, check=True).stdout
            psql("COPY ledger (day, cents) FROM STDIN BINARY", copied)
            told = psql("COPY ledger TO STDOUT (FORMAT csv)").decode()
            self.assertTrue(told == "".join(f"{day},{cents}\n" for day, cents in rows))
            (self.folder / "input").write_text(text + "x;;")
            cut = subprocess.run(given, stdout=subprocess.PIPE, stderr=subprocess.DEVNULL)
            with self.assertRaises(subprocess.CalledProcessError):
                psql("COPY ledger (day, cents) FROM STDIN BINARY", cut.stdout)
            self.assertEqual(psql("SELECT count(*) FROM ledger"), b"1000000\n")


class Workers(unittest.TestCase):
    """A worker of a cluster calls read_lines, as the page says."""

    @unittest.skipUnless(importlib.util.find_spec("dask"), "there is no Dask")
    def test_partitions(self):
        code = """
import sys
import dask.bag as bag
sys.path.insert(0, sys.argv[1])
from big_file import read_lines
lines = [f"{k}\\n" for k in range(1000)]
lines[700] = "7x\\n"
parts = bag.from_sequence(lines, npartitions=4)
for scheduler in ("threads", "processes"):
    read = parts.map_partitions(lambda lines: [read_lines("".join(lines))])
    read = read.compute(scheduler=scheduler)
    print([getattr(it, "row", None) or sum(it.tolist()) for it in read])
"""
        command = [sys.executable, "-c", code, str(EXAMPLES)]
        run = subprocess.run(command, text=True, timeout=120, stdout=subprocess.PIPE, check=True)
        self.assertEqual(run.stdout, "[31125, 93625, 200, 218625]\n" * 2)

    @unittest.skipUnless(importlib.util.find_spec("pyspark"), "there is no Spark")
    def test_partitions_of_spark(self):
        code = """
from pyspark import SparkContext
from big_file import read_lines
lines = [str(k) for k in range(1000)]
lines[700] = "7x"
with SparkContext("local[2]", "big_file") as context:
    rdd = context.parallelize(lines, 4)
    read = rdd.mapPartitions(lambda lines: [read_lines("".join(line + "\\n" for line in lines))])
    print([getattr(it, "row", None) or sum(it.tolist()) for it in read.collect()])
"""
        where = {**os.environ, "PYTHONPATH": os.pathsep.join([str(EXAMPLES), *sys.path])}
        run = subprocess.run([sys.executable, "-c", code], text=True, timeout=300, env=where,
                             stdout=subprocess.PIPE, check=True)
        self.assertEqual(run.stdout, "[31125, 93625, 200, 218625]\n")


@unittest.skipUnless(importlib.util.find_spec("pandas"), "there is no pandas")
class Frame(Case):
    """frame.py."""

    def test_files(self):
        for content, answer in (
            (b"1;rent;-80000\n2;;\n3;a;7", (0, "3 rows, 1 without cents, -80000 to 7\n", "")),
            (b"1;;%d\n" % -2**63, (0, f"1 rows, 0 without cents, {-2**63} to {-2**63}\n", "")),
            (b"", (0, "0 rows, 0 without cents, <NA> to <NA>\n", "")),
            (b"1;;2\n;;3\n", (1, "", line_of('line 2, "day": "": missing digit at byte 0'))),
            (b"1;;2\n3;;-\n", (1, "", line_of('line 2, "cents": "-": missing digit at byte 1'))),
        ):
            with self.subTest(content=content[:40]):
                self.assertEqual(self.answer("frame.py", content), answer)
        self.assertEqual(answer_of("frame.py", "/dev/stdin", input="1;;2"),
                         (0, "1 rows, 0 without cents, 2 to 2\n", ""))
        self.assertEqual(answer_of("frame.py", self.folder), (1, "", "Is a directory\n"))
        self.assertEqual(answer_of("frame.py", os.devnull, "more")[:2], (2, ""))

    def test_no_number_is_copied(self):
        code = """
import sys
sys.path.insert(0, sys.argv[1])
import frame, jadvolni
table = jadvolni.parse_table("1;;2\\n3;;\\n", frame.CELLS, ";")
made = table.to_pandas()
table["day"][0], table["cents"].numbers[0] = 5, 7
print(made.to_csv(index=False), made.dtypes.tolist())
"""
        command = [sys.executable, "-c", code, str(EXAMPLES)]
        run = subprocess.run(command, text=True, timeout=120, stdout=subprocess.PIPE, check=True)
        self.assertEqual(run.stdout, "day,cents\n5,7\n3,\n [dtype('uint16'), Int64Dtype()]\n")


class BigFile(Case):
    """big_file.py."""

    def test_threads(self):
        lines = [b"%d\n" % k for k in range(1000)]
        right = (0, "1000 numbers, sum 499500\n", "")
        wrong = b"".join([*lines[:500], b"5o\n", *lines[501:900], b"x\n", *lines[901:]])
        told = f"line 501, byte {len(b''.join(lines[:500])) + 1}: InvalidDigit\n"
        for threads in ("1", "2", "7", "255"):
            with self.subTest(threads=threads):
                self.assertEqual(self.answer("big_file.py", b"".join(lines), threads), right)
                self.assertEqual(self.answer("big_file.py", b"".join(lines)[:-1], threads), right)
                self.assertEqual(self.answer("big_file.py", wrong, threads), (1, "", told))

    def test_other_files(self):
        for content, answer in (
            (b"", (0, "0 numbers, sum 0\n", "")),
            (b"7", (0, "1 numbers, sum 7\n", "")),
            (b"0" * 1_000_000 + b"7\n", (0, "1 numbers, sum 7\n", "")),
            (b"9223372036854775807\n1\n", (0, f"2 numbers, sum {2**63}\n", "")),
            (b"\n", (1, "", "line 1, byte 0: Empty\n")),
            (b"1\n\n2\n", (1, "", "line 2, byte 2: Empty\n")),
            (b"1\r\n2\r\n", (1, "", "line 1, byte 1: InvalidDigit\n")),
            (b"1\r2", (1, "", "line 1, byte 1: InvalidDigit\n")),
            (b"1\0\n2\n", (1, "", "line 1, byte 1: InvalidDigit\n")),
        ):
            for name, *words in COMMANDS[3:5]:
                with self.subTest(name=name, content=content[:40]):
                    self.assertEqual(self.answer(name, content, *words), answer)


class Total(Case):
    """total.py."""

    def test_files_of_several_blocks(self):
        lines = b"12345\n" * 500_000
        self.assertEqual(self.answer("total.py", lines + b"1"),
                         (0, f"500001 numbers, sum {12345 * 500_000 + 1}\n", ""))
        self.assertEqual(self.answer("total.py", lines + b"1\n2x"),
                         (1, "", "line 500002, byte 3000003: InvalidDigit\n"))
        self.assertEqual(self.answer("total.py", b"1\n" + b"0" * 3_000_000),
                         (1, "", "the field at byte 2 has more than 1048576 bytes; size may have to"
                          " be larger\n"))

    @unittest.skipUnless(importlib.util.find_spec("tqdm"), "there is no tqdm")
    def test_the_bar_of_a_slow_file(self):
        """It is drawn on a terminal alone, and gone at the end."""
        ours, theirs = os.openpty()
        command = [sys.executable, str(EXAMPLES / "total.py"), "/dev/stdin"]
        with subprocess.Popen(command, stdin=subprocess.PIPE, stdout=subprocess.PIPE,
                              stderr=theirs) as run:
            for pause in 1.5, 0:
                run.stdin.write(b"1\n" * 2**19)
                run.stdin.flush()
                time.sleep(pause)
            self.assertEqual(run.communicate(timeout=60)[0], b"1048576 numbers, sum 1048576\n")
        os.close(theirs)
        drawn = os.read(ours, 9999).decode()
        os.close(ours)
        self.assertRegex(drawn, r"2\.\d+MB \[.*/s\]")
        self.assertEqual(drawn.rpartition("\r")[0].rpartition("\r")[2].strip(), "")


class Inputs(Case):
    """Inputs and outputs that aren't plain files."""

    def test_a_pipe(self):
        for (name, *words), content, said in zip(COMMANDS, CONTENTS, SAID):
            with self.subTest(name=name):
                answer = answer_of(name, "/dev/stdin", *words, input=content)
                self.assertEqual(answer, (0, said, ""))

    def test_a_named_pipe_whose_writer_pauses(self):
        path = self.folder / "pipe"
        os.mkfifo(path)

        def write():
            with open(path, "wb", buffering=0) as pipe:
                for part in (b"1\n2", b"0\n", b"3\n" * 50_000):
                    pipe.write(part)

        writer = threading.Thread(target=write, daemon=True)
        writer.start()
        answer = answer_of("big_file.py", path, "3")
        writer.join(timeout=60)
        self.assertEqual(answer, (0, "50002 numbers, sum 150021\n", ""))

    def test_a_file_without_a_size(self):
        path = pathlib.Path("/proc/sys/kernel/pid_max")
        self.assertEqual(path.stat().st_size, 0)
        said = f"1 numbers, sum {path.read_text()}"
        self.assertEqual(answer_of("big_file.py", path), (0, said, ""))

    def test_no_input(self):
        locked = self.folder / "locked"
        locked.touch(0o000)
        paths = [
            (self.folder, "Is a directory"),
            (self.folder / "missing", "No such file or directory"),
            ("/proc/self/mem", "Input/output error"),
        ]
        if os.geteuid():
            paths.append((locked, "Permission denied"))
        for name, *words in COMMANDS:
            for path, told in paths:
                with self.subTest(name=name, path=path):
                    self.assertEqual(answer_of(name, path, *words), (1, "", f"{told}\n"))

    def test_more_than_the_memory(self):
        path = self.folder / "input"
        path.touch()
        os.truncate(path, 1 << 40)
        limit = functools.partial(resource.setrlimit, resource.RLIMIT_AS, (1 << 32, 1 << 32))
        answer = answer_of("big_file.py", path, preexec_fn=limit)
        self.assertEqual(answer, (1, "", "there is not enough memory\n"))

    def test_a_full_device(self):
        for (name, *words), content in zip(COMMANDS, CONTENTS):
            with self.subTest(name=name), open("/dev/full", "wb") as full:
                path = self.folder / "input"
                path.write_text(content)
                answer = answer_of(name, path, *words, stdout=full)
                self.assertEqual(answer, (1, None, "standard output: No space left on device\n"))

    def test_a_pipe_that_nobody_reads(self):
        path = self.folder / "input"
        for (name, *words), content in zip(COMMANDS, CONTENTS):
            with self.subTest(name=name):
                path.write_text(content)
                end, pipe = os.pipe()
                os.close(end)
                answer = answer_of(name, path, *words, stdout=pipe)
                os.close(pipe)
                self.assertEqual(answer, (1, None, "standard output: Broken pipe\n"))

    def test_bytes_that_the_locale_lacks(self):
        where = {**os.environ, "PYTHONIOENCODING": "ascii"}
        path = self.folder / "input"
        path.write_text("Day;Amount\nHeute\u00e4;1,00\n", encoding="utf-8")
        said = "1 entries from Heute\\xe4 to Heute\\xe4, 1.00 in all\n"
        self.assertEqual(answer_of("accounts.py", path, env=where)[:2], (0, said))

    def test_a_module_that_is_missing(self):
        path = self.folder / "input"
        path.write_text("1;a;2\n")
        paths = [str(self.folder), *filter(None, [os.environ.get("PYTHONPATH")])]
        where = {**os.environ, "PYTHONPATH": os.pathsep.join(paths)}
        for name, module in (("frame.py", "pandas"), ("by_ranges.py", "distributed")):
            (self.folder / f"{module}.py").write_text(f"raise ModuleNotFoundError(name='{module}')")
            answer = answer_of(name, path, env=where)
            self.assertEqual(answer, (1, "", f"this needs {module}, which isn't installed\n"))

    def test_no_binding(self):
        for name, *words in (*COMMANDS, ("accounts.py",), ("copy_binary.py",)):
            # Without the packages that are installed, and without PYTHONPATH.
            command = [sys.executable, "-S", "-E", str(EXAMPLES / name), os.devnull, *words]
            run = subprocess.run(command, capture_output=True, text=True, timeout=60)
            self.assertEqual((run.returncode, run.stdout), (1, ""))
            self.assertEqual(run.stderr, "this needs jadvolni, which isn't installed:"
                             " bindings/python/README.md says how\n")

    def end_of_pipe(self, path, run):
        """The end to write to, once a program has opened the other. One that ends fails the test.
        """
        while run.poll() is None:
            with contextlib.suppress(OSError):
                return os.open(path, os.O_WRONLY | os.O_NONBLOCK)
            time.sleep(0.01)
        self.fail(run.communicate())

    def test_an_interrupt(self):
        """A program that waits for input ends as the shell's own commands do."""
        path = self.folder / "pipe"
        os.mkfifo(path)
        default = functools.partial(signal.signal, signal.SIGINT, signal.SIG_DFL)
        for name, *words in COMMANDS:
            with self.subTest(name=name):
                command = [sys.executable, str(EXAMPLES / name), str(path), *words]
                with subprocess.Popen(command, stdout=subprocess.PIPE, stderr=subprocess.PIPE,
                                      preexec_fn=default) as run:
                    end = self.end_of_pipe(path, run)
                    run.send_signal(signal.SIGINT)
                    answer = run.communicate(timeout=60)
                    os.close(end)
                self.assertEqual((run.returncode, answer), (130, (b"", b"")))

    def test_a_closed_output(self):
        for (name, *words), content in zip((*COMMANDS, ("copy_binary.py",)), (*CONTENTS, "1;a;2")):
            with self.subTest(name=name):
                path = self.folder / "input"
                path.write_text(content)
                answer = answer_of(name, path, *words, preexec_fn=lambda: os.close(1))
                self.assertEqual(answer, (1, "", "standard output is closed\n"))

    def test_errors_that_nobody_can_read(self):
        path = self.folder / "input"
        path.write_text("Day;Amount\n1.1.;1,00\n2.1.;x\n")
        said = "1 entries from 1.1. to 1.1., 1.00 in all\n"
        with open("/dev/full", "wb") as full:
            for theirs in {"stderr": full}, {"preexec_fn": lambda: os.close(2)}:
                with self.subTest(theirs=theirs):
                    self.assertEqual(answer_of("accounts.py", path, **theirs)[:2], (1, said))
                    self.assertEqual(answer_of("accounts.py", path, "more", **theirs)[:2], (2, ""))

    def test_words_that_ask_for_the_page(self):
        for name, *words in (*COMMANDS, ("accounts.py",), ("service.py",), ("copy_binary.py",)):
            for word in "-h", "--help":
                with self.subTest(name=name, word=word):
                    status, output, errors = answer_of(name, word, *words)
                    self.assertEqual((status, errors), (0, ""))
                    self.assertIn(f"python3 {name} FILE", output)

    def test_words_that_are_none(self):
        for name, *words in (
            ("ledger.py", "more"),
            ("records.py", "more"),
            ("data.py",),
            ("accounts.py", "more"),
            ("to_sqlite.py",),
            ("to_sqlite.py", ""),
            ("service.py", "more"),
            ("big_file.py", "0"),
            ("big_file.py", "²"),
            ("big_file.py", "256"),
            ("big_file.py", "3", "4"),
            ("total.py", "more"),
        ):
            with self.subTest(name=name, words=words):
                status, output, errors = answer_of(name, os.devnull, *words)
                self.assertEqual((status, output), (2, ""))
                self.assertIn(f"python3 {name} FILE", errors)


if __name__ == "__main__":
    unittest.main()
