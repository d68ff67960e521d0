"""Compilers and interpreters, and how they are asked which texts are integers: for
tools/check_languages.py. Needs Python 3.11."""
from __future__ import annotations

import ast
import json
import os
import re
import shutil
import subprocess
import sys
import tempfile
import tomllib
import warnings
from dataclasses import dataclass
from typing import Callable, Protocol

ROUNDS = 60  # compilations at most until no line is wrong
# the value of each text, or None where it is no integer
Answers = dict[str, "int | None"]


class Judge(Protocol):
    """What can be asked which texts are integers, and of which value."""

    def is_there(self) -> bool:
        """Whether this machine has it."""

    def ask(self, texts: list[str]) -> Answers:
        """The answer to each text."""


def run(command: list[str], folder: str, text: str = "") -> subprocess.CompletedProcess[str]:
    """Runs a command in a folder."""
    return subprocess.run(command, cwd=folder, input=text, capture_output=True, text=True)


# ---- compilers

@dataclass
class Compiler:
    """How a compiler is asked: by a program with a text on each line, from which the lines with
    faults are taken until there are none.

    The file, what stands before the lines, a line, what stands behind them, the command that
    compiles, the one that runs the program, and what the first needs besides itself.
    """

    file: str
    before: str
    line: str
    after: str
    compile_by: list[str]
    run_by: list[str]
    needs: tuple[str, ...] = ()

    def is_there(self) -> bool:
        """Whether this machine has the compiler and what it needs."""
        return all(shutil.which(program) for program in (self.compile_by[0], *self.needs))

    def ask(self, texts: list[str]) -> Answers:
        """The answer to each text."""
        with tempfile.TemporaryDirectory() as folder:
            left = dict(enumerate(texts))
            for _ in range(ROUNDS):
                said = self.compiled(folder, left, len(texts))
                if said.returncode == 0:
                    return dict.fromkeys(texts) | self.values(folder, texts)
                wrong = self.wrong_lines(said.stdout + said.stderr, left)
                if not wrong:
                    break
                left = {at: text for at, text in left.items() if at not in wrong}
        raise RuntimeError(f"{self.compile_by[0]}: {(said.stdout + said.stderr)[:2000]}")

    def compiled(self, folder: str, left: dict[int, str],
                 count: int) -> subprocess.CompletedProcess[str]:
        """What the compiler says of a program with the texts that are left."""
        blank = "\n" * self.line.count("\n")
        lines = [self.line.format(at=at, text=left[at]) if at in left else blank
                 for at in range(count)]
        with open(os.path.join(folder, self.file), "w", encoding="utf-8") as file:
            file.write(self.before + "\n".join(lines) + "\n" + self.after)
        return run(self.compile_by, folder)

    def wrong_lines(self, said: str, left: dict[int, str]) -> set[int]:
        """The numbers of the texts that the compiler finds faults with."""
        first = self.before.count("\n") + 1
        found = re.findall(rf"{re.escape(self.file)}[:(](\d+)(?!.*\bwarning\b)", said)
        return {(int(at) - first) // (self.line.count("\n") + 1) for at in found} & set(left)

    def values(self, folder: str, texts: list[str]) -> Answers:
        """The values that the program prints."""
        pairs = [line.split() for line in run(self.run_by, folder).stdout.splitlines()]
        return {texts[int(at)]: int(value) for at, value in pairs}


def c_compiler(command: list[str], file: str = "x.c") -> Compiler:
    """A compiler of C or C++."""
    # (a quote that nothing closes reaches to the end of its line)
    return Compiler(file, "#include <stdio.h>\nint main(void) {\n",
                    'printf("%d %llu\\n", {at}, 0ull | ({text}\n));', "}\n",
                    [*command, "-pedantic-errors", file, "-o", "x"], ["./x"])


RUSTC = Compiler(
    "x.rs", 'fn p(at: u32, value: u128) { println!("{} {}", at, value); }\nfn main() {\n',
    "p({at}, {text});", "}\n", ["rustc", "--error-format=short", "--crate-name", "x", "x.rs"],
    ["./x"], needs=("cc",))
GO = Compiler(
    "x.go", 'package main\nimport "fmt"\n'
    "func p(at int, value uint64) { fmt.Println(at, value) }\nfunc main() {\n",
    "p({at}, 0 | ({text}))", "}\n", ["go", "build", "-gcflags=-e", "-o", "x", "x.go"], ["./x"])
JAVAC = Compiler(
    "X.java", "class X {\n"
    'static void p(int at, long value) { System.out.println(at + " " + value); }\n'
    "public static void main(String[] arguments) {\n", "p({at}, {text});", "} }\n",
    ["javac", "-Xmaxerrs", "100000", "X.java"], ["java", "X"])
GNAT = Compiler(
    "x.adb", "with Ada.Text_IO; use Ada.Text_IO;\nprocedure X is\n"
    "type Wide is range 0 .. 2 ** 62;\nprocedure P (At_Line : Integer; Value : Wide) is\nbegin\n"
    "Put_Line (Integer'Image (At_Line) & Wide'Image (Value));\nend P;\nbegin\n",
    "P ({at}, {text});", "null;\nend X;\n",
    ["gnatmake", "-gnatm99999", "-gnatws", "x.adb"], ["./x"])
MCS = Compiler(
    "x.cs", "class X {\n"
    'static void P(int at, ulong value) { System.Console.WriteLine(at + " " + value); }\n'
    "static void Main() {\n", "P({at}, {text});", "} }\n", ["mcs", "x.cs"], ["mono", "x.exe"])
KOTLINC = Compiler(
    "x.kt", 'fun p(at: Int, value: Long) { println("$at $value") }\nfun main() {\n',
    "p({at}, {text})", "}\n", ["kotlinc", "x.kt", "-d", "x.jar"], ["kotlin", "-cp", "x.jar", "XKt"])
# (an `integer` has 32 bits, and a literal beyond them ends the program only when that runs)
GHDL = Compiler(
    "x.vhd", "use std.textio.all;\nentity x is end;\narchitecture a of x is\n"
    "type wide is range 0 to 16#3fff_ffff_ffff_ffff#;\n"
    "procedure p(at : integer; value : wide) is variable l : line;\nbegin\n"
    'write(l, integer\'image(at) & " " & wide\'image(value)); writeline(output, l);\nend;\n'
    "begin process begin\n", "p({at}, {text});", "wait; end process; end a;\n",
    ["ghdl", "-a", "--std=08", "x.vhd"], ["ghdl", "--elab-run", "--std=08", "x"])
# (it writes two words of eight bytes for each line)
NASM = Compiler(
    "x.asm", "", "dq {at}, {text}", "", ["nasm", "-f", "bin", "x.asm", "-o", "x"],
    [sys.executable, "-c", "import struct\n"
     "for pair in struct.iter_unpack('<QQ', open('x', 'rb').read()): print(*pair)"])


# ---- interpreters

def answers_so(judge: Interpreter | Toplevel, wanted: Answers) -> bool:
    """Whether a command is there and answers some texts so."""
    if shutil.which(judge.command[0]) is None:
        return False
    try:
        return judge.ask(list(wanted)) == wanted
    except RuntimeError:
        return False


@dataclass
class Interpreter:
    """A command that reads texts and prints a line for each: an integer, or nothing."""

    command: list[str]

    def is_there(self) -> bool:
        """Whether this machine has it."""
        return answers_so(self, {"1": 1})

    def ask(self, texts: list[str]) -> Answers:
        """The answer to each text."""
        said = run(self.command, "/", "\n".join(texts) + "\n").stdout.split("\n")
        if len(said) != len(texts) + 1:
            raise RuntimeError(f"{self.command[0]}: {len(said) - 1} answers to {len(texts)} texts")
        return {text: int(answer) if answer else None for text, answer in zip(texts, said)}


@dataclass
class Toplevel:
    """A toplevel: a phrase on each line, and those that are read print their place and value. What
    is known says whether it is the version that is wanted."""

    command: list[str]
    before: str
    phrase: str
    known: Answers

    def is_there(self) -> bool:
        """Whether this machine has it, in that version."""
        return answers_so(self, self.known)

    def ask(self, texts: list[str]) -> Answers:
        """The answer to each text."""
        phrases = [self.phrase.format(at=at, text=text) for at, text in enumerate(texts)]
        said = run(self.command, "/", "\n".join([self.before, *phrases, ""])).stdout
        pairs = re.findall(r"(?m)^@(\d+) (-?\d+)$", said)
        return dict.fromkeys(texts) | {texts[int(at)]: int(value) for at, value in pairs}


@dataclass
class Here:
    """A call of this Python's own."""

    call: Callable[[str], object]

    def is_there(self) -> bool:
        """Always."""
        return True

    def ask(self, texts: list[str]) -> Answers:
        """The answer to each text."""
        with warnings.catch_warnings():
            warnings.simplefilter("ignore")
            return {text: self.integer(text) for text in texts}

    def integer(self, text: str) -> int | None:
        """The answer to a text."""
        try:
            value = self.call(text)
        except (SyntaxError, ValueError):
            return None
        return value if isinstance(value, int) and not isinstance(value, bool) else None


def python_literal(text: str) -> object:
    """The value of a text that is one literal of Python's."""
    body = ast.parse(text, mode="eval").body
    return body.value if isinstance(body, ast.Constant) else None


def node(read: str, is_integer: str, before: str = "") -> Interpreter:
    """Node, with an expression for the value of a text, and one for whether that is an integer."""
    return Interpreter(["node", "-e", before + """
for (const text of require("fs").readFileSync(0, "utf8").split("\\n").slice(0, -1)) {
  let value = null;
  try { value = READ; } catch (fault) { }
  console.log(IS_INTEGER ? String(BigInt(value)) : "");
}""".replace("READ", read).replace("IS_INTEGER", is_integer)])


PYTHON = Here(python_literal)
PYTHON_JSON = Here(json.loads)
PYTHON_TOML = Here(lambda text: tomllib.loads(f"a = {text}")["a"])
NODE = node("""new Function('"use strict"; return (' + text + ')')()""",
            'typeof value == "bigint" || Number.isInteger(value)')
# (packages of node, which NODE_PATH finds)
JSON5 = node("JSON5.parse(text)", "Number.isInteger(value)", 'const JSON5 = require("json5");')
YAML = node('YAML.parse(text, { version: "1.2", schema: "core", intAsBigInt: true })',
            'typeof value == "bigint"', 'const YAML = require("yaml");')
RUBY = Interpreter(["ruby", "-e", """
$VERBOSE = nil
STDIN.each_line(chomp: true) do |text|
  value = begin; eval(text); rescue ScriptError, StandardError; nil; end
  puts(value.is_a?(Integer) ? value : "")
end"""])
OCAML = Toplevel(
    ["ocaml", "-noinit", "-w", "-a"], 'let p at value = Printf.printf "\\n@%d %d\\n" at value;;',
    "p {at} ({text});;", {"1": 1})
GHCI = Toplevel(
    ["ghci", "-v0", "-ignore-dot-ghci", "-XNumericUnderscores", "-XBinaryLiterals"],
    "let { p :: Int -> Integer -> IO (); "
    'p at value = putStrLn ("@" ++ show at ++ " " ++ show value) }', "p {at} ({text})", {"1": 1})


def postgres(known: Answers) -> Toplevel:
    """PostgreSQL, by the server that psql finds by itself. From version 16 on it reads `1_0` as
    SQL:2023 does."""
    return Toplevel(["psql", "-XqAt"], "", "select '@{at} ' || ({text});", known)
