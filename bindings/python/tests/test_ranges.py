"""Tests of examples/columns/by_ranges.py: by a run of its own, and by two workers of Dask."""

import importlib.util
import pathlib
import random
import subprocess
import sys
import tempfile
import unittest

from jadvolni import ParseError, parse_table

EXAMPLES = pathlib.Path(__file__).resolve().parents[3] / "examples" / "columns"
HAS_DASK = all(importlib.util.find_spec(name) for name in ("dask", "distributed"))
sys.path.insert(0, str(EXAMPLES))
import by_ranges  # noqa: E402

PIECES = (b"1;a;2", b'3;"b\n";', b'4;"c;""\n";-5', b"7;;", b'8;"\n\n\n\n\n\n";9', b"1;x;2")
WRONG = (b"x;a;1", b"1;a", b"1;a;2;3", b'1;a"b;2', b"70000;a;1", b'1;"a', b"")
# Two workers, which are processes, and each file with ranges of each size.
CODE = """
import sys
sys.path[:] = {path!r}
if __name__ == "__main__":
    import by_ranges
    from distributed import Client
    workers = {{"n_workers": 2, "threads_per_worker": 1, "processes": True}}
    with Client(**workers, dashboard_address=None) as client:
        assert len(client.scheduler_info()["workers"]) == 2
        for file, size in {files!r}:
            try:
                print(by_ranges.total(by_ranges.by_workers(client), file, size))
            except ValueError as error:
                print(error)
"""


def in_order(call, *lists):
    """Runs one after the other."""
    return [call(*items) for items in zip(*lists)]


def backwards(call, *lists):
    """Runs the last one first."""
    return [call(*items) for items in reversed(list(zip(*lists)))][::-1]


def wanted(text):
    """What one call answers."""
    try:
        rows = parse_table(text, by_ranges.CELLS, ";", has_quotes=True)
    except ParseError as error:
        return f"row {error.row + 1}, cell {error.column + 1}, byte {error.place}: {error.kind}"
    return {"rows": len(rows["day"]), "known": sum(map(bool, rows["cents"].present)),
            "sum": sum(rows["cents"].numbers.tolist())}


class Ranges(unittest.TestCase):
    """A table by ranges of its bytes."""

    def setUp(self):
        folder = tempfile.TemporaryDirectory()
        self.addCleanup(folder.cleanup)
        self.folder = pathlib.Path(folder.name)

    def found(self, run, path, size):
        """What the ranges answer."""
        try:
            return by_ranges.total(run, str(path), size)
        except ValueError as error:
            return str(error)

    def test_each_range_beside_one_call(self):
        chance, path, faults = random.Random(4), self.folder / "table", 0
        for turn in range(60):
            rows = chance.choices(PIECES, k=chance.randrange(12))
            for _ in range(chance.randrange(3) if turn % 2 else 0):
                rows.insert(chance.randrange(len(rows) + 1), chance.choice(WRONG))
            text = b"\n".join(rows) + chance.choice((b"", b"\n"))
            path.write_bytes(text)
            one = wanted(text)
            faults += isinstance(one, str)
            for size in {1, 2, 3, chance.randrange(4, 40), len(text) + 1}:
                for run in in_order, backwards:
                    self.assertEqual(self.found(run, path, size), one, (text, size))
        self.assertGreater(faults, 12)

    @unittest.skipUnless(HAS_DASK, "Dask isn't installed")
    def test_two_workers(self):
        good = b"".join(b'%d;"a\n%d";%d\n' % (k, k, -k) for k in range(3000))
        texts = (good, good + b"1;a;x\n" + good + b"x;a;1\n", b"1;a;2;3\n" + good, good + b'1;"a',
                 b"")
        files = []
        for number, text in enumerate(texts):
            path = self.folder / str(number)
            path.write_bytes(text)
            files += [(str(path), size) for size in (5000, 1 << 26)]
        code = CODE.format(path=[str(EXAMPLES), *sys.path], files=files)
        script = self.folder / "script.py"
        script.write_text(code, encoding="utf-8")
        run = subprocess.run([sys.executable, str(script)], capture_output=True, text=True,
                             timeout=120)
        self.assertEqual(run.stdout.splitlines(),
                         [str(wanted(text)) for text in texts for _ in range(2)], run.stderr)
        self.assertEqual(run.returncode, 0, run.stderr)

    @unittest.skipUnless(HAS_DASK, "Dask isn't installed")
    def test_the_command(self):
        path = self.folder / "table"
        path.write_bytes(b'1;"a\n";5\n2;;\n')
        for words, said in (((str(path), "4"), (0, "2 rows, 1 with cents, sum 5\n")),
                            ((str(path),), (0, "2 rows, 1 with cents, sum 5\n")),
                            ((str(path), "0"), (2, "")), ((), (2, "")),
                            ((str(self.folder / "none"),), (1, ""))):
            run = subprocess.run([sys.executable, str(EXAMPLES / "by_ranges.py"), *words],
                                 capture_output=True, text=True, timeout=120)
            self.assertEqual((run.returncode, run.stdout), said, run.stderr)


if __name__ == "__main__":
    unittest.main()
