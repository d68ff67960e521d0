"""Tests of the examples of users' tasks: beside what one writes else, and as commands."""

import contextlib
import importlib.util
import inspect
import os
import pathlib
import random
import sqlite3
import subprocess
import sys
import tempfile
import unittest

EXAMPLES = pathlib.Path(__file__).resolve().parents[3] / "examples" / "columns"
sys.path.insert(0, str(EXAMPLES))
import accounts  # noqa: E402
import data  # noqa: E402
import service  # noqa: E402

BOM = "\ufeff"


def lines_of(*parts):
    """How many lines of code some functions have, without their texts for readers."""
    bodies = [inspect.getsource(it).replace(f'    """{it.__doc__}"""\n', "") for it in parts]
    return sum(len(it.splitlines()) for it in bodies)


class Task(unittest.TestCase):
    """A task, over a file."""

    def setUp(self):
        folder = tempfile.TemporaryDirectory()
        self.addCleanup(folder.cleanup)
        self.folder = pathlib.Path(folder.name)

    def file(self, content, name="input"):
        """The path of a file with this text."""
        path = self.folder / name
        path.write_bytes(content if isinstance(content, bytes) else content.encode())
        return str(path)

    def answer(self, task, path, *words):
        """What a program says of a path: its status, its output and its errors."""
        command = [sys.executable, str(EXAMPLES / task), path, *words]
        run = subprocess.run(command, capture_output=True, text=True, timeout=60)
        return run.returncode, run.stdout, run.stderr.replace(path, "FILE")


class Accounts(Task):
    """accounts.py."""

    EXPORT = (f'{BOM}Account;Day;For;Amount\r\n0012;26.11.2026;"Rent; ""May""";-1.234,50\r\n'
              '\n0012;27.11.2026;"5 nails\nand a saw";12,00\n0012;28.11.2026;;"0,05"')

    def test_right_files(self):
        path = self.file(self.EXPORT)
        found = ["26.11.2026", "27.11.2026", "28.11.2026"], [-123450, 1200, 5], []
        self.assertEqual((accounts.entries(path), accounts.by_csv(path)), (found, found))
        said = "3 entries from 26.11.2026 to 28.11.2026, -1222.45 in all\n"
        self.assertEqual(self.answer("accounts.py", path), (0, said, ""))
        path = self.file("Amount;Day\r\n")
        self.assertEqual(self.answer("accounts.py", path), (0, "0 entries, 0.00 in all\n", ""))

    def test_bad_rows(self):
        for row, told in (
            ("0012;29.11.2026;;12,5o",
             'line 7, "Amount": "12,5o": invalid digit at byte 4 of the cell'),
            ("0012;29.11.2026;;", 'line 7, "Amount": "": missing digit at byte 0 of the cell'),
            ("0012;29.11.2026", 'line 7: too few cells, none for "For"'),
            ("0012;29.11.2026;;1,00;", 'line 7, column 5: "": too many cells'),
        ):
            path = self.file(f"{self.EXPORT}\r\n{row}\r\n0012;30.11.2026;;-,\n7;1.12.;;2,00\n")
            days, cents, bad = accounts.entries(path)
            self.assertEqual((days[3:], cents[3:], len(bad)), (["1.12."], [200], 2))
            self.assertEqual(str(bad[0]), f"{path}, {told}")
            self.assertEqual(accounts.by_csv(path)[:2], (days, cents))
            self.assertEqual(len(accounts.by_csv(path)[2]), 2)
            said = "4 entries from 26.11.2026 to 1.12., -1220.45 in all\n"
            self.assertEqual(self.answer("accounts.py", path),
                             (1, said, f"bad rows: 2, the first: FILE, {told}\n"))

    def test_amounts_that_csv_takes(self):
        for amount in ("1.2,5", "1e2", " 1,00", "1,005", "1", "1_0,00", "١,00"):
            path = self.file(f"Day;Amount\n1;{amount}\n")
            self.assertEqual(len(accounts.entries(path)[2]), 1)
            self.assertEqual(accounts.by_csv(path)[2], [])

    def test_random_sums(self):
        cents = [random.Random(1).randint(-10**9, 10**9) for _ in range(2000)]
        amounts = [f"{it / 100:,.2f}".translate(str.maketrans(",.", ".,")) for it in cents]
        path = self.file("Day;Amount\n" + "".join(f"d;{it}\n" for it in amounts))
        self.assertEqual(accounts.entries(path)[1], cents)
        self.assertEqual(accounts.by_csv(path)[1], cents)

    def test_other_files(self):
        for content, told in (
            ("", "FILE: there is no header: the text has no byte\n"),
            ("Day,Amount\n1,2", "FILE: the header has no column 'Day', 'Amount': it has "
                                "'Day,Amount'; separator may have to be ','\n"),
        ):
            self.assertEqual(self.answer("accounts.py", self.file(content)), (1, "", told))
        self.assertEqual(self.answer("accounts.py", str(self.folder)),
                         (1, "", "FILE: Is a directory\n"))

    def test_how_long_it_is(self):
        self.assertLessEqual(lines_of(accounts.entries) + len(accounts.CELLS), 12)


class Data(Task):
    """data.py."""

    NAMES = [f"c{k}" for k in (3, 7, 11, 0, 19)]

    def table(self, random_, rows):
        """A table of 20 columns, of which one in ten rows is bad, and the sums of the others."""
        lines, sums = [",".join(f"c{k}" for k in range(20))], dict.fromkeys(self.NAMES, 0)
        bad = 0
        for _ in range(rows):
            cells = [str(random_.randint(-10**6, 10**6)) for _ in range(20)]
            cells[5] = '"a, b"'
            fault = random_.randrange(30)
            if fault < 3:
                cells, bad = [[*cells[:9]], [*cells, "1"], [*cells[:-1], "7x"]][fault], bad + 1
            else:
                sums = {name: it + int(cells[int(name[1:])]) for name, it in sums.items()}
            lines.append(",".join(cells))
        return "\r\n".join(lines), sums, bad

    def test_sums(self):
        text, sums, bad = self.table(random.Random(1), 500)
        path = self.file(BOM + text)
        table, skipped = data.columns(path, self.NAMES)
        self.assertEqual({name: sum(it.tolist()) for name, it in table.items()}, sums)
        self.assertEqual(skipped, bad)
        said = ", ".join(f"{name} {sums[name]}" for name in self.NAMES)
        self.assertEqual(self.answer("data.py", path, *self.NAMES),
                         (1, f"{said}, bad rows: {bad}\n", ""))
        path = self.file("c3,c7,c11,c0,c19\n1,2,3,4,5\n")
        said = "c3 1, c7 2, c11 3, c0 4, c19 5, bad rows: 0\n"
        self.assertEqual(self.answer("data.py", path, *self.NAMES), (0, said, ""))

    @unittest.skipUnless(importlib.util.find_spec("pandas"), "there is no pandas")
    def test_beside_pandas(self):
        text, sums, _ = self.table(random.Random(2), 500)
        frame, _ = data.by_pandas(self.file(text), self.NAMES)
        self.assertEqual(frame.sum().to_dict(), sums)
        for cell in ("1e3", "12.0", " 12"):
            path = self.file(f"a,b\n1,2\n{cell},3\n")
            self.assertEqual(data.columns(path, ["a"])[1], 1)
            self.assertEqual(data.by_pandas(path, ["a"])[1], 0)

    def test_wrong_names(self):
        for names, told in ((["c"], "'c'"), (["a"], "'a'")):
            status, output, errors = self.answer("data.py", self.file("a,a,b\n1,2,3\n"), *names)
            self.assertEqual((status, output), (1, ""))
            self.assertIn(told, errors)
            self.assertEqual(errors.count("\n"), 1)

    def test_how_long_it_is(self):
        self.assertLessEqual(lines_of(data.columns), 6)


class Service(Task):
    """service.py."""

    def test_right_files(self):
        for content, name in (
            ("[service]\nport = 8080\nworkers: 4\noffset=-60\n", "service.ini"),
            ('{"port": 8080, "offset": -60, "workers": "4", "name": "a"}', "service.json"),
            (f"{BOM}[service]\r\nport=8080\r\nworkers=4\r\noffset=-60", "service.ini"),
            (f'{BOM}{{"port": 8080, "workers": 4, "offset": -60}}', "service.json"),
        ):
            path = self.file(content, name)
            texts, found = service.texts_of(path), {"port": 8080, "workers": 4, "offset": -60}
            self.assertEqual((service.numbers_of(texts), service.by_int(texts)),
                             ((found, []), (found, [])))
            self.assertEqual(self.answer("service.py", path),
                             (0, "port 8080, workers 4, offset -60\n", ""))

    def test_wrong_numbers(self):
        for text, told in (
            ("0", "0 is not from 1 to 65535"),
            ("65536", "65536 is not from 1 to 65535"),
            ("9" * 30, f"{'9' * 30} is not from 1 to 65535"),
            ("-1", "-1 is not from 1 to 65535"),
            ("80.5", "invalid digit at byte 2: b'80.5'"),
            ('"8080 "', "invalid digit at byte 4: b'8080 '"),
            ('"08080"', "forbidden leading zero at byte 0: b'08080'"),
            ('""', "missing digit at byte 0: b''"),
            ("null", "text has to be a str or contiguous bytes, and not NoneType"),
            ("true", "text has to be a str or contiguous bytes, and not bool"),
            ("[1]", "text has to be a str or contiguous bytes, and not list"),
        ):
            content = f'{{"port": {text}, "workers": 64, "offset": 841}}'
            path = self.file(content, "service.json")
            self.assertEqual(self.answer("service.py", path), (
                1, "", f"FILE: port: {told}; offset: 841 is not from -720 to 840\n"))

    def test_what_int_takes(self):
        for text in (" 80", "8_0", "٨٠", "+80", "080", True):
            texts = {"port": text, "workers": "1", "offset": "0"}
            self.assertEqual(len(service.numbers_of(texts)[1]), 1)
            self.assertEqual(service.by_int(texts)[1], [])

    def test_other_files(self):
        missing = "; ".join(f"{it}: missing digit at byte 0: b''"
                            for it in ("port", "workers", "offset"))
        for content, name in (("", "a.ini"), ("[other]\nport=1\n", "a.ini"), ("{}", "a.json")):
            path = self.file(content, name)
            self.assertEqual(self.answer("service.py", path), (1, "", f"FILE: {missing}\n"))
        for content, name in (
            ("port=1", "a.ini"), ("[service]\nport=1\nport=2\n", "a.ini"), ("\0", "a.ini"),
            ("", "a.json"), ("[1]", "a.json"), ("7", "a.json"), ("[" * 10**5, "a.json"),
        ):
            status, output, errors = self.answer("service.py", self.file(content, name))
            self.assertEqual((status, output, errors.count("\n")), (1, "", 1), errors)
        self.assertEqual(self.answer("service.py", os.devnull + "x"),
                         (1, "", "FILE: No such file or directory\n"))

    def test_how_long_it_is(self):
        self.assertLessEqual(lines_of(service.numbers_of), 10)


class ToSqlite(Task):
    """to_sqlite.py."""

    def rows(self, path):
        """The rows of a database's table."""
        with contextlib.closing(sqlite3.connect(path)) as database:
            return database.execute("SELECT * FROM ledger").fetchall()

    def tables(self, path):
        """The names of a database's tables."""
        with contextlib.closing(sqlite3.connect(path)) as database:
            return database.execute("SELECT name FROM sqlite_master").fetchall()

    def test_rows(self):
        database = str(self.folder / "database")
        path = self.file("1;rent;-80000\n65535;caf\u00e9;\n")
        self.assertEqual(self.answer("to_sqlite.py", path, database), (0, "2 rows\n", ""))
        found = [(1, "rent", -80000), (65535, "caf\u00e9", None)]
        self.assertEqual(self.rows(database), found)
        long = self.file("7;a;-9223372036854775808\n" * 250_000)
        self.assertEqual(self.answer("to_sqlite.py", long, database), (0, "250000 rows\n", ""))
        self.assertEqual(self.rows(database), found + [(7, "a", -2**63)] * 250_000)

    def test_a_fault_loads_nothing(self):
        database = str(self.folder / "database")
        path = self.file("1;a;1\n" * 250_000 + "2;b;x\n")
        told = 'FILE, line 250001, "cents": "x": invalid digit at byte 0 of the cell\n'
        self.assertEqual(self.answer("to_sqlite.py", path, database), (1, "", told))
        self.assertEqual(self.tables(database), [])
        good = self.file("1;a;1\n", "good")
        self.assertEqual(self.answer("to_sqlite.py", good, database), (0, "1 rows\n", ""))
        self.assertEqual(self.answer("to_sqlite.py", path, database), (1, "", told))
        self.assertEqual(self.rows(database), [(1, "a", 1)])

    def test_a_text_that_is_no_utf_8(self):
        database = str(self.folder / "database")
        for rows in 3, 250_000:
            path = self.file(b"1;a;1\n" * rows + b"2;caf\xe9;4\n")
            status, output, errors = self.answer("to_sqlite.py", path, database)
            self.assertEqual((status, output, self.tables(database)), (1, "", []))
            self.assertRegex(errors, f"in row {rows + 1} of the table\n$")

    def test_a_file_that_is_none(self):
        database = self.folder / "database"
        status, _, errors = self.answer("to_sqlite.py", str(self.folder / "none"), str(database))
        self.assertEqual((status, database.exists()), (1, False), errors)

    def test_a_table_with_other_columns(self):
        database = str(self.folder / "database")
        with contextlib.closing(sqlite3.connect(database)) as made:
            columns = "id INTEGER PRIMARY KEY, cents INTEGER, day INTEGER, name TEXT"
            made.execute(f"CREATE TABLE ledger ({columns})")
        path = self.file("7;a;-5\n8;b;\n")
        self.assertEqual(self.answer("to_sqlite.py", path, database), (0, "2 rows\n", ""))
        self.assertEqual(self.rows(database), [(1, -5, 7, "a"), (2, None, 8, "b")])

    def test_a_database_that_is_none(self):
        for folder in self.folder, self.folder / "none" / "database":
            path = self.file("1;a;1\n")
            status, output, errors = self.answer("to_sqlite.py", path, str(folder))
            self.assertEqual((status, output), (1, ""))
            self.assertRegex(errors, "unable to open database file\n$")
        path = self.file("1;a;1\n")
        status, _, errors = self.answer("to_sqlite.py", path, path)
        self.assertEqual((status, errors), (1, "FILE: file is not a database\n"))


if __name__ == "__main__":
    unittest.main()
