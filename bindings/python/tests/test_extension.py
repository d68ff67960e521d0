"""Tests of the extension: its exports, whose calls it makes, where it loads, how it is built."""

import os
import pathlib
import random
import re
import shutil
import stat
import subprocess
import sys
import tempfile
import textwrap
import tomllib
import unittest
from unittest import mock

import jadvolni

BINDING = pathlib.Path(__file__).resolve().parents[1]
EXTENSION = jadvolni._core.__file__

# A library of calls by the names of ours, which answer 42 whatever the text is.
OTHER = """
#include <stddef.h>
#include <stdint.h>
typedef struct result { uint32_t status; size_t place; } result;
result jadvolni_parse_u64_with_format(const char *text, size_t len, const void *format,
                                      uint64_t *value)
{ (void)text; (void)format; *value = 42; return (result){0, len}; }
result jadvolni_parse_u64_column(const char *text, size_t len, uint8_t separator,
                                 const void *format, uint64_t *values, size_t capacity,
                                 size_t *count)
{ (void)text; (void)separator; (void)format; *values = 42; *count = capacity;
  return (result){0, len}; }
uint32_t jadvolni_format_error(const void *format) { (void)format; return 8; }
"""


def interpreters():
    """The module that makes interpreters, and None where this Python has none of 3.12 or later."""
    if sys.version_info >= (3, 13):
        import _interpreters

        return _interpreters
    if sys.version_info >= (3, 12):
        import _xxsubinterpreters

        return _xxsubinterpreters
    return None


class Symbols(unittest.TestCase):
    """What the extension exports, and whose calls it makes."""

    @unittest.skipUnless(shutil.which("nm"), "there is no nm")
    def test_it_exports_its_own_start_alone(self):
        command = ["nm", "-D", "--defined-only", "--format=just-symbols", EXTENSION]
        said = subprocess.run(command, capture_output=True, text=True, check=True)
        self.assertEqual(said.stdout.split(), ["PyInit__core"])

    @unittest.skipUnless(shutil.which("cc"), "there is no cc")
    def test_another_library_of_the_name_changes_nothing(self):
        program = """
            import jadvolni
            hexadecimal = jadvolni.Format(mantissa_radix=16)
            column = jadvolni.parse_column("7", "u64").tolist()
            print(jadvolni.parse("7", "u64"), column, jadvolni.parse("f", "u64", hexadecimal))
        """
        with tempfile.TemporaryDirectory() as folder:
            source, other = pathlib.Path(folder, "other.c"), pathlib.Path(folder, "other.so")
            source.write_text(OTHER, encoding="utf-8")
            subprocess.run(["cc", "-shared", "-fPIC", str(source), "-o", str(other)], check=True)
            command = [sys.executable, "-c", textwrap.dedent(program)]
            where = {**os.environ, "LD_PRELOAD": str(other)}
            run = subprocess.run(command, capture_output=True, text=True, env=where, timeout=60)
        self.assertEqual((run.stdout, run.stderr), ("7 [7] 15\n", ""))


class Interpreters(unittest.TestCase):
    """The extension in more than one interpreter."""

    @unittest.skipUnless(interpreters(), "this Python has no interpreters with a lock of their own")
    def test_it_loads_in_each(self):
        made = interpreters()
        program = f"""
            import sys
            sys.path[:] = {sys.path!r}
            import jadvolni
            assert jadvolni.parse("7") == 7
            assert id(jadvolni.ParseError) != {id(jadvolni.ParseError)}
            try:
                jadvolni.parse("7x")
            except jadvolni.ParseError as error:
                assert error.place == 1
            else:
                raise AssertionError
            try:
                jadvolni.Table(a=jadvolni.parse_column("7")).__arrow_c_array__()
            except RuntimeError as error:
                assert "needs the first interpreter" in str(error)
            else:
                raise AssertionError
        """
        for _ in range(3):
            one = made.create()
            try:
                self.assertIsNone(made.run_string(one, textwrap.dedent(program)))
            finally:
                made.destroy(one)
        self.assertRaises(jadvolni.ParseError, jadvolni.parse, "7x")

    def test_it_loads_anew(self):
        ours = sys.modules.pop("jadvolni._core")
        try:
            import jadvolni._core as again

            self.assertIsNot(again.ParseError, ours.ParseError)
            self.assertRaises(again.ParseError, again.parse, "x")
            self.assertRaises(ours.ParseError, ours.parse, "x")
        finally:
            sys.modules["jadvolni._core"] = jadvolni._core = ours


class Fuzzing(unittest.TestCase):
    """The driver of the extension's target for libFuzzer, before a release runs it for minutes."""

    def test_the_driver(self):
        source = (BINDING.parents[1] / "tests" / "c" / "fuzz_python.c").read_text(encoding="utf-8")
        driver = "".join(f"{line}\n" for line in re.findall(r'(?m)^    "(.*)\\n"', source))
        chance, scope = random.Random(1), {}
        with mock.patch.dict(sys.modules, {"_core": jadvolni._core}):
            exec(driver, scope)
        texts = b"12,3;\n-4", b" 7\r\n,\n", b'"1","2"\n'
        for _ in range(300):
            format = bytes([chance.randrange(2, 37)]).ljust(19, b"\0")
            scope["one"](format + chance.randbytes(15) + chance.choice(texts))


class Types(unittest.TestCase):
    """What a checker of types says of callers."""

    @unittest.skipUnless(shutil.which("mypy"), "there is no mypy")
    def test_columns_of_a_dict(self):
        program = """
            import gzip, jadvolni
            ledger = {"day": "u16", "what": None, "cents": jadvolni.Column("i64", may_miss=True)}
            day: int = jadvolni.read_table("ledger.csv", ledger, ";")["day"][0]
            day += next(jadvolni.iter_column(gzip.open("days.gz", "rb")))[0]
            try:
                for kind in "u8", "u16":
                    day += jadvolni.parse("1", kind)
                day += jadvolni.parse("1.50", jadvolni.Fixed("u8", places=2), max=200)
                day += jadvolni.parse_front("1.5", jadvolni.Fixed(places=1, group=" "))[0]
            except jadvolni.ParseError as error:
                print(error.place + 1, error.row + 1, error.line + 1, error.text.decode())
            amount = jadvolni.Fixed("i64", places=2, point=",")
            bank = {"when": jadvolni.Text(), "day": "u8", "what": None, "cents": amount,
                    "note": jadvolni.Column(jadvolni.Text(None), may_miss=True)}
            day += len(jadvolni.read_table("bank.csv", bank, ";", allows_returns=True)["note"])
            bad: list[jadvolni.ParseError] = []
            table = jadvolni.parse_table("1", {"a": "u8"}, on_error="skip", errors=bad)
            for table in jadvolni.iter_table(gzip.open("days.gz", "rb"), {"a": "u8"},
                                             on_error="skip", errors=print):
                day += table.bad_rows + jadvolni.line_column(b"", 0)[1]
        """
        with tempfile.TemporaryDirectory() as folder:
            caller = pathlib.Path(folder, "caller.py")
            caller.write_text(textwrap.dedent(program))
            command = ["mypy", "--strict", "--follow-imports=silent", "--no-site-packages",
                       "--cache-dir", folder, str(caller)]
            where = {**os.environ, "MYPYPATH": str(BINDING / "src")}
            run = subprocess.run(command, capture_output=True, text=True, env=where, timeout=120)
        self.assertIn("Success", run.stdout, run.stderr)


class Build(unittest.TestCase):
    """How the wheel is built. Where one is installed, -S keeps it out."""

    @unittest.skipUnless(shutil.which("cc"), "there is no cc")
    def test_an_editable_one_leads_to_the_sources(self):
        with tempfile.TemporaryDirectory() as folder:
            sources, site = pathlib.Path(folder, "sources"), pathlib.Path(folder, "site")
            shutil.copytree(BINDING, sources)
            site.mkdir()
            top = BINDING.parents[1]
            where = {"JADVOLNI_LIBRARY": str(top / "build/libjadvolni.a"),
                     **os.environ, "JADVOLNI_INCLUDE": str(top / "include")}
            where.pop("PYTHONPATH", None)
            build = f"import build_wheel; print(build_wheel.build_editable({str(site)!r}))"
            run = subprocess.run([sys.executable, "-c", build], cwd=sources, env=where, timeout=60,
                                 capture_output=True, text=True, check=True)
            shutil.unpack_archive(site / run.stdout.strip(), site, "zip")
            module = sources / "src" / "jadvolni" / "__init__.py"
            with module.open("a", encoding="utf-8") as file:
                file.write("parse = 7\n")
            load = f"import site; site.addsitedir({str(site)!r}); import jadvolni as it; "
            command = [sys.executable, "-S", "-c", load + "print(it.parse, it.parse_front('12px'))"]
            run = subprocess.run(command, env=where, timeout=60, capture_output=True, text=True)
        self.assertEqual((run.stdout, run.stderr), ("7 (12, 2)\n", ""))

    def test_the_version_is_that_of_the_project(self):
        project = tomllib.loads((BINDING / "pyproject.toml").read_text(encoding="utf-8"))["project"]
        self.assertEqual(jadvolni.__version__, project["version"])

    def test_an_older_python_is_told(self):
        program = "import sys; sys.version_info = (3, 10); import build_wheel"
        run = subprocess.run([sys.executable, "-B", "-c", program], cwd=BINDING, timeout=60,
                             capture_output=True, text=True)
        self.assertRegex(run.stderr, "^the binding needs Python 3.11 or later, and this is ")

    def test_a_python_without_headers_is_told(self):
        program = "import build_wheel; build_wheel.sysconfig.get_paths = " \
                  "lambda: {'include': '/no'}; build_wheel.build_wheel('.')"
        where = {**os.environ, "JADVOLNI_LIBRARY": __file__, "PYTHONDONTWRITEBYTECODE": "1"}
        run = subprocess.run([sys.executable, "-c", program], cwd=BINDING, env=where, timeout=60,
                             capture_output=True, text=True)
        self.assertEqual((run.returncode, run.stderr),
                         (1, "there is no /no/Python.h: install this Python's headers\n"))

    def test_flags_of_the_environment(self):
        with tempfile.TemporaryDirectory() as folder:
            compiler, said = pathlib.Path(folder, "compiler"), pathlib.Path(folder, "said")
            compiler.write_text(f'#!/bin/sh\nprintf "%s\\n" "$@" > {said}\nexit 7\n')
            compiler.chmod(compiler.stat().st_mode | stat.S_IXUSR)
            given = {
                "CC": f"{compiler} --first",
                "CPPFLAGS": "-D_FORTIFY_SOURCE=3",
                "CFLAGS": "-O1 -DTEXT='a b'",
                "LDFLAGS": "-Wl,-z,now",
                "JADVOLNI_LIBRARY": str(compiler),
            }
            program = "import build_wheel; build_wheel.build_wheel('.')"
            command = [sys.executable, "-c", program]
            where = {**os.environ, **given, "PYTHONDONTWRITEBYTECODE": "1"}
            run = subprocess.run(command, cwd=BINDING, env=where, capture_output=True, timeout=60)
            words = said.read_text().splitlines()
        self.assertNotEqual(run.returncode, 0)
        self.assertEqual(words[0], "--first")
        for earlier, later in (
            ("-O3", "-D_FORTIFY_SOURCE=3"),
            ("-O3", "-O1"),
            ("-O1", "-DTEXT=a b"),
            (str(compiler.resolve()), "-Wl,-z,now"),
        ):
            self.assertLess(words.index(earlier), words.index(later))


if __name__ == "__main__":
    unittest.main()
