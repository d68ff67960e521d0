"""The examples in C and C++, run as hostile users run them: a part of make test-c.

Each program is built by each compiler, as users build it and under sanitizers. It is given long
lines, NUL bytes, no last line feed, an empty file, line ends of CR and LF, a folder as input and a
full device as output.
"""
from __future__ import annotations

import os
import subprocess
from functools import partial
from typing import Dict, Iterator, List, NamedTuple, Tuple

from callers import (C_COMPILERS, CXX17, CXX_COMPILERS, OPTIMISED, SANITIZED, Failed, Place, Step,
                     build, source)

FOLDER, FULL = "< /", "> /dev/full"
IS_FOLDER = "standard input: Is a directory"
IS_FULL = "standard output: No space left on device"
SUM_LEAVES = "the sum leaves the type"
GREATEST = b"9223372036854775807"
Words = Tuple[str, ...]


class Case(NamedTuple):
    """A run: the program, its standard input, its output, status and errors, its arguments, what
    the shell redirects, the KiB of memory that it may take, if there is a limit, and the folder,
    if another one has a program of the name."""

    program: str
    given: bytes = b""
    said: str = ""
    status: int = 0
    errors: str = ""
    words: Words = ()
    redirected: str = ""
    memory: int = 0
    folder: str = ""


def adds_up(program: str, front: bytes = b"", words: Words = ()) -> Iterator[Case]:
    """The cases of a program that adds up numbers, each of which stands after `front`."""
    for block in (4096, 65536, 131072):
        # Where a program cuts lines into blocks, it cuts this number in two.
        long = front + b"0" * (block - 5 - len(front)) + b"123456789\n"
        yield Case(program, long * 2 + front + b"3", "246913581\n", words=words)
    numbers = [GREATEST, b"-9223372036854775808", b"-1"]
    yield Case(program, b"".join(front + one + b"\n" for one in numbers), "-2\n", words=words)
    yield Case(program, front + b"1\n" + front + b"2", "3\n", words=words)
    yield Case(program, b"", "0\n", words=words)
    yield Case(program, b"", "", 2, f"{program}: {IS_FOLDER}", words, FOLDER)
    yield Case(program, front + b"1\n", "", 2, f"{program}: {IS_FULL}", words, FULL)


def faults(program: str, errors: Dict[bytes, str], words: Words = ()) -> Iterator[Case]:
    """Inputs, each with what the program reports of it."""
    for given, fault in errors.items():
        yield Case(program, given, "", 1, f"{program}: {fault}", words)


SUM_FAULTS = {
    b"1\0\n2\n": "line 1, byte 1: invalid digit",
    b"1\r\n2\r\n": "line 1, byte 1: invalid digit",
    b"1\n\n2\n": "line 2, byte 0: missing digit",
    b"1\n" + b"9" * 70000: "line 2, byte 18: overflow",
    GREATEST + b"\n1": f"line 2: {SUM_LEAVES}",
    b"-1\n-" + GREATEST + b"\n-1\n-1": f"line 3: {SUM_LEAVES}",
}
LEDGER_FAULTS = {
    b"rent " + GREATEST + b"\nx 1": f"row 2: {SUM_LEAVES}",
    b"x 0\n" * 1500 + b"x " + GREATEST + b"\nx 1\n": f"row 1502: {SUM_LEAVES}",
    b"rent -80000\nfood 12x\nwine x\n": "row 2, cell 2, byte 19: invalid digit",
    b"x 1\n" * 30000 + b"x \n": "row 30001, cell 2, byte 120002: missing digit",
    b"x 1\n\nx 1\n": "row 2, cell 2, byte 4: too few cells",
    b"x 1\0\n": "row 1, cell 2, byte 3: invalid digit",
    b"x 1\r\n": "row 1, cell 2, byte 3: invalid digit",
    b"two words 7": "row 1, cell 2, byte 4: invalid digit",
    b"a" * 70000 + b" 1x": "row 1, cell 2, byte 70002: invalid digit",
}
COLUMN_FAULTS = {
    b"1," + GREATEST + b"\n1,1": f"row 2: {SUM_LEAVES}",
    b"a,12,x\nb,9223372036854775808,x\n": "row 2, cell 2, byte 27: overflow",
    b"a,12\nb\n": "row 2, cell 2, byte 6: too few cells",
    b"a,1\nb,2,3\n": "row 2, cell 3, byte 8: too many cells",
    b"\n": "row 1, cell 2, byte 0: too few cells",
    b"a,\n": "row 1, cell 2, byte 2: missing digit",
    b"a,1\r\n": "row 1, cell 2, byte 3: invalid digit",
    b"a,1\0,2": "row 1, cell 2, byte 3: invalid digit",
}
SETTING_FAULTS = {
    ("70000", "5"): "PORT: 70000 is not from 1 to 65535",
    ("-1", "5"): "PORT: -1 is not from 1 to 65535",
    ("0", "5"): "PORT: 0 is not from 1 to 65535",
    ("80", "101"): "PERCENT: 101 is not from 0 to 100",
    ("80", "+5"): "PERCENT: forbidden plus sign",
    ("080", "5"): "PORT: forbidden leading zero",
    ("", "5"): "PORT: missing digit",
    ("80 ", "5"): "PORT: invalid digit",
}
COLOUR_FAULTS = {
    "0#": "invalid digit",
    "": "missing digit",
    "FFFFFFFFF": "overflow",
    "+1e90F": "forbidden plus sign",
    "-1e90F": "invalid digit",
    "fff": "a colour has six digits",
    "1FFFFFF": "a colour has six digits",
}


def of_columns() -> Iterator[Case]:
    """The programs that add up numbers."""
    yield from adds_up("sum")
    yield from faults("sum", SUM_FAULTS)
    yield from adds_up("ledger", b"rent ")
    yield from faults("ledger", LEDGER_FAULTS)
    yield from adds_up("csv_column", b"a,", ("2",))
    yield from adds_up("csv_column", b"", ("1",))
    yield from faults("csv_column", COLUMN_FAULTS, ("2",))
    yield Case("csv_column", b",1" * 70000, "1\n", words=("2",))
    beyond = {b"1,2\n": "row 1, cell 3, byte 3: too few cells"}
    yield from faults("csv_column", beyond, ("18446744073709551615",))
    yield Case("records", b"  1rent    -5365bank-80000" * 50000, "-4000250000\n")
    yield from faults("records", {b"  1rent    -5\n": "row 2, cell 1, byte 14: too few cells",
                                  b"  1rent    -x  2": "row 1, cell 3, byte 12: invalid digit"})


def of_exports() -> Iterator[Case]:
    """The program that prints a bank's or a shop's export."""
    program, bank, shop = "bank_export", (";,.",), (",.,",)
    names = b"\xef\xbb\xbf\"Day\";Account;\"Pur\npose\";Amount\r\n"
    rows = (b'"26.11.2026";"0012";"rent ""May"", 2nd";"-1.234,50"\r\n'
            b"27.11.2026;DE 7;5 nails; 12,00 \n28.11.2026;;\"a\n\tb\";\n")
    said = ('26.11.2026 | 0012 | rent "May", 2nd | -1234.50\n'
            "27.11.2026 | DE 7 | 5 nails | 12.00\n28.11.2026 |  | a  b | no amount\n")
    yield Case(program, names + b"\n" + rows + b"\r\n", f"{said}-1222.50\n", words=bank)
    yield Case(program, b'day,order,item,amount\n26 Nov,7,"a, b","1,234.00"\n,8,c,""\n,9,d,-0.01',
               "26 Nov | 7 | a, b | 1234.00\n | 8 | c | no amount\n | 9 | d | -0.01\n1233.99\n",
               words=shop)
    yield Case(program, names + rows + b"d;a;p;1,5\nd;a\n", f"{said}-1222.50\n", 1,
               f"{program}: line 7, field 4: missing digit\n{program}: bad rows: 2", bank)
    yield Case(program, names + b"d;a;p;1,005\n" * 3000 + rows, f"{said}-1222.50\n", 1,
               f"{program}: line 3, field 4: invalid digit\n{program}: bad rows: 3000", bank)
    yield Case(program, names + b"d;a;p;0,01\r\n" * 2500 + b"d;a;\"p;1,00\nd;a;p;1,00\n",
               "d | a | p | 0.01\n" * 2500 + "25.00\n", 1,
               f"{program}: line 2503, field 3: misplaced quote\n{program}: bad rows: 1", bank)
    yield Case(program, names + b'd;a;"' + b"x" * 200000 + b'""";0,01',
               "d | a | " + "x" * 200000 + '" | 0.01\n0.01\n', words=bank)
    yield Case(program, names + b"d;a;p;92.233.720.368.547.758,07\n" * 2,
               "d | a | p | 92233720368547758.07\n", 1, f"{program}: {SUM_LEAVES}", bank)
    yield Case(program, names + b"d;a;p;-92.233.720.368.547.758,08",
               "d | a | p | -92233720368547758.08\n-92233720368547758.08\n", words=bank)
    for given in (b"", b"\xef\xbb\xbf", names, names[:-2]):
        yield Case(program, given, "0.00\n", words=bank)
    yield from faults(program, {names + b"d;a\0;p;1,00\n": "byte 39: a NUL"}, bank)
    point = "the point has to be no digit, no sign, and not the separator of the integer part"
    separator = "the separator has to be ASCII, and no sign and no digit of the radix"
    for marks, fault in ((";,,", point), (";5.", point), (";,5", separator)):
        yield Case(program, names, "", 2, f"{program}: {marks}: {fault}", (marks,))
    yield Case(program, b"", "", 2, f"{program}: {IS_FOLDER}", bank, FOLDER)
    yield Case(program, names + rows, "", 2, f"{program}: {IS_FULL}", bank, FULL)


def by_name() -> Iterator[Case]:
    """The program that adds up a column by its name."""
    program, words = "named_column", ("cents",)
    export = b"\xef\xbb\xbfday,\"what\nfor\",\"cents\"\n"
    yield Case(program, export + b"1,\"a\n\"\"b\",-80000\n2,,\"7\"\n3,c,1", "-79992\n", words=words)
    yield Case(program, b"cents\n" + b"7\n" * 1500000, "10500000\n", words=words)
    yield Case(program, b"cents\n" + b"0" * 70000 + b"7\n", "7\n", words=words)
    yield Case(program, export, "0\n", words=words)
    no_room = "a row has no room: a quote isn't closed"
    for given, errors in {
        b"": "the table has no header",
        b"day,cent\n": 'no column "cents": the header has "day", "cent"',
        b"cents,cents\n": 'more than one column "cents": the header has "cents", "cents"',
        b'cents,"a"b\n': "the header is no row: misplaced quote",
        export + b"1,a,12x\n": 'line 3, "cents": "12x": invalid digit at byte 2 of the cell',
        export + b"1,a\n": 'line 3: too few cells, none for "cents"',
        b"cents\n1\n2\0\n": r'line 3, "cents": "2\x00": invalid digit at byte 1 of the cell',
        b"cents\n1\n\"" + b"2\n" * 1000000: f"line 3: {no_room}",
        b"\"" + b"2\n" * 1000000: f"byte 0: {no_room}",
        b"cents\n" + GREATEST + b"\n1\n": f"row 2: {SUM_LEAVES}",
    }.items():
        yield from faults(program, {given: errors}, words)
    yield Case(program, b"", "", 2, f"{program}: {IS_FOLDER}", words, FOLDER)
    yield Case(program, b"cents\n1\n", "", 2, f"{program}: {IS_FULL}", words, FULL)


def with_bad_rows() -> Iterator[Case]:
    """The program that skips bad rows and reports them."""
    program, words = "bad_rows", ("b",)

    def skips(given: bytes, said: str, *errors: str) -> Case:
        return Case(program, given, f"{said}\n", 1 if errors else 0,
                    "\n".join(f"{program}: {it}" for it in errors), words)
    yield skips(b"a,b\n1,2\n,-5", "-3")
    yield skips(b"a,b\n", "0")
    yield skips(b"\xef\xbb\xbfa,\"b\"\n1,2\n\"x\ny\",7x\nc\n1,3\n", "5",
                'line 4, "b": "7x": invalid digit at byte 1 of the cell',
                'line 5: too few cells, none for "b"', "bad rows: 2")
    yield skips(b"a,b\n1,2\0\n\n3,\"4", "0",
                r'line 2, "b": "2\x00": invalid digit at byte 1 of the cell',
                'line 3: too few cells, none for "b"; the row is empty: skips_empty_rows may have '
                "to be set",
                r'line 4, "b": "\"4": misplaced quote at byte 0 of the cell', "bad rows: 3")
    yield skips(b"b\n" + b"1\nx\n" * 300000, "300000",
                *(f'line {2 * k + 3}, "b": "x": invalid digit at byte 0 of the cell'
                  for k in range(10)), "bad rows: 300000")
    yield from faults(program, {
        b"": "the table has no header",
        b"a\n": 'no column "b": the header has "a"',
        b"b\n1\n\"" + b"2\n" * 1000000: "line 3: a row has no room: a quote isn't closed",
        b"b\n" + GREATEST + b"\n1\n": SUM_LEAVES,
    }, words)
    yield Case(program, b"", "", 2, f"{program}: {IS_FOLDER}", words, FOLDER)
    yield Case(program, b"b\n1\n", "", 2, f"{program}: {IS_FULL}", words, FULL)


def of_words() -> Iterator[Case]:
    """The programs that read no input."""
    yield Case("ten_lines", said="err Overflow 19\n")
    yield Case("ten_lines", status=1, errors=IS_FULL, redirected=FULL)
    bank = "Rent: -123450\nBooks: 700\n"
    yield Case("statement", said=bank + "row 2, byte 37: invalid digit\n")
    yield Case("statement", status=1, errors=IS_FULL, redirected=FULL)
    wrong = 'line 2, column 3: "12,5o": invalid digit at byte 4 of the cell\n'
    yield Case("bank_statement", said=bank + wrong)
    yield Case("bank_statement", status=2, errors=f"bank_statement: {IS_FULL}", redirected=FULL)
    yield Case("colour")
    yield Case("colour", said="30 144 255\n0 1 2\n", words=("1e90FF", "000102"))
    yield Case("colour", status=2, errors=f"colour: {IS_FULL}", words=("1e90FF",), redirected=FULL)
    yield Case("settings", said="port 65535, 0 percent\n", words=("65535", "0"))
    yield Case("settings", status=2, errors="usage: settings PORT PERCENT", words=("80",))
    yield Case("settings", status=2, errors=f"settings: {IS_FULL}", words=("80", "5"),
               redirected=FULL)
    for words, fault in SETTING_FAULTS.items():
        yield Case("settings", status=2, errors=f"settings: {fault}", words=words)
    for word, fault in COLOUR_FAULTS.items():
        errors = f"colour: {word}: {fault}"
        yield Case("colour", b"", "30 144 255\n", 1, errors, ("1e90FF", word))


PAGES = {
    "sum": ("", "Adds up integers, one a line.", "a wrong line"),
    "ledger": ("", "Adds up the amounts of lines `NAME AMOUNT`.", "a wrong row"),
    "records": ("", "Adds up the amounts of records of 13 bytes.", "a wrong record"),
    "csv_column": ("COLUMN ", "Adds up that column, counted from 1.", "a wrong row"),
    "bank_export": ("MARKS ", "Prints an export, and the sum of its amounts.", "a bad row"),
    "named_column": ("NAME ", "Adds up the column of that name.", "a wrong row"),
    "bad_rows": ("NAME ", "Adds up the column of that name, without bad rows.", "a bad row"),
}
REFUSED: Dict[str, Tuple[Words, ...]] = {
    "csv_column": ((), ("0",), ("",), ("x",), ("-1",), ("18446744073709551616",)),
    "bank_export": ((), ("",), (";,",), (";,.;",)),
    "named_column": ((),),
    "bad_rows": ((),),
}


def of_arguments() -> Iterator[Case]:
    """The programs that read standard input, asked for their page, and with wrong arguments."""
    for program, (words, does, wrong) in PAGES.items():
        page = (f"usage: {program} {words}< FILE\n{does}"
                f" Exit status 1: {wrong}, or too large a sum; 2: reading or writing failed.")
        yield Case(program, b"1\n", f"{page}\n", words=("--help",))
        yield Case(program, b"1\n", f"{page}\n", words=("--help", "more"))
        yield Case(program, b"", "", 2, f"{program}: {IS_FULL}", ("--help",), FULL)
        for refused in (*REFUSED.get(program, (("more",), ("-",), ("",))), ("1", "2")):
            yield Case(program, b"1\n", "", 2, page, refused)


def of_memory() -> Iterator[Case]:
    """The programs that keep a row or all of their input, with too little memory for it."""
    digits, cells = b"1" * 40_000_000, b"," * 2_000_000
    no_memory, little = "Cannot allocate memory", 50_000
    for program, errors, words in (("sum", f"standard input: {no_memory}", ()),
                                   ("ledger", f"memory for a row: {no_memory}", ()),
                                   ("csv_column", f"memory for a row: {no_memory}", ("1",)),
                                   ("bank_export", f"standard input: {no_memory}", (";,.",))):
        yield Case(program, digits, "", 2, f"{program}: {errors}", words, "", little, "c")
    yield Case("csv_column", cells, "", 2, f"csv_column: memory for the columns: {no_memory}",
               ("1",), "", little, "c")
    yield Case("csv_column", digits, "", 2, "csv_column: std::bad_alloc", ("1",), "", little, "cpp")


CASES = [*of_columns(), *of_exports(), *by_name(), *with_bad_rows(), *of_words(), *of_arguments(),
         *of_memory()]


def check(place: Place, case: Case, program: str) -> None:
    """Runs a case. What a sanitizer says counts too, and fails it."""
    limit = f"ulimit -v {case.memory} && " if case.memory else ""
    command = ["sh", "-c", f'{limit}exec "$@" {case.redirected}', "sh", program, *case.words]
    done = subprocess.run(command, input=case.given, stdout=subprocess.PIPE,
                          stderr=subprocess.PIPE, timeout=60, env=place.environment())
    wanted = (case.status, case.said.encode(), f"{case.errors}\n".encode() if case.errors else b"")
    answered = (done.returncode, done.stdout, done.stderr)
    if answered != wanted:
        raise Failed(f"{case.program} {' '.join(case.words)} {case.redirected}, given "
                     f"{case.given[:60]!r}:\n{answered}, and not {wanted}")


def check_folder(place: Place, folder: str, compiler: str, flags: List[str]) -> str:
    """Builds the examples of a folder, and runs their cases."""
    names = [name for name in os.listdir(source("examples", folder))
             if name.endswith((".c", ".cpp"))]
    programs = {name.partition(".")[0]: build(place, compiler, f"examples/{folder}/{name}", flags)
                for name in names}
    cases = [case for case in CASES if case.program in programs and case.folder in ("", folder)]
    if "-fsanitize=address,undefined" in flags:  # (which takes more memory than any machine has)
        cases = [case for case in cases if not case.memory]
    without = programs.keys() - {case.program for case in cases}
    if without:
        raise Failed(f"no case runs {', '.join(without)}")
    for case in cases:
        check(place, case, programs[case.program])
    return f"{len(programs)} programs, {len(cases)} runs"


def steps(place: Place) -> Iterator[Step]:
    """Each folder of examples, by each of its compilers."""
    for compiler in (*C_COMPILERS, *CXX_COMPILERS):
        is_cxx = compiler in CXX_COMPILERS
        front = [CXX17] if is_cxx else []
        step = partial(check_folder, place, "cpp" if is_cxx else "c", compiler)
        yield f"examples, {compiler}", partial(step, [*front, *OPTIMISED])
        yield f"examples under sanitizers, {compiler}", partial(step, [*front, *SANITIZED])
