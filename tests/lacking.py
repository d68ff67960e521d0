#!/usr/bin/env python3
"""Runs the scripts of this tree where what they need isn't there, or with words that they refuse.

Each has to end with a status other than 0 and a sentence that says what is lacking, and none with
a traceback. Nothing is built in the copy in which they run.
"""
from __future__ import annotations

import os
import shutil
import subprocess
import sys
import tempfile
from typing import NamedTuple

TOP = os.path.dirname(os.path.dirname(os.path.abspath(__file__)))
LEXINT, JAD = "crates/lexint/out/lexint: make lexint makes one", "PROGRAM, which make jad builds"
LIBRARY = "build/libjadvolni.a: make lib makes one"
SHARED = "build/libjadvolni.so: make lib makes one"
NEITHER = "it takes two checkouts that are built"
RANGE = "invalid positive value: '0'"


class Case(NamedTuple):
    """A command, and what it has to say."""

    command: str
    message: str


CASES = [
    Case("python3 tools/fuzz.py", LEXINT),
    Case("python3 tools/fuzz.py --edges --program nowhere", "no nowhere: make lexint"),
    Case("python3 tools/fuzz.py --lines 0", RANGE),
    Case("python3 tools/check_languages.py json", LEXINT),
    Case("python3 tools/check_languages.py latin", "nothing is asked for: latin"),
    Case("tools/run_rows.py", LEXINT),
    Case("tools/run_rows.py nowhere", "nowhere: make lexint"),
    Case("tools/devices.py", "no program is built: make lexint"),
    Case("tools/devices.py nowhere", "no nowhere: make lexint"),
    Case("python3 tools/fuzz.py --program README.md", "this is no program: README.md: make lexint"),
    Case("tools/run_rows.py README.md", "README.md: make lexint makes one"),
    Case("tools/devices.py README.md", "this is no program: README.md: make lexint"),
    Case("tools/run_rows.py --help", "no option --help"),
    Case("tools/devices.py --help", "no option --help"),
    Case("python3 tools/c_calls.py --help", "no option --help"),
    Case("python3 tools/house.py --help", "python3 tools/house.py          exit status 1"),
    Case("python3 tools/must_not_compile.py --help", "usage: tools/must_not_compile.py"),
    Case("python3 tools/reference_lines.py --help", "tools/reference_lines.py --check"),
    Case("python3 tests/break_off.py --help", "Breaks off tools/build.sh"),
    Case("python3 tools/documents.py --words > /dev/full", "No space left on device"),
    Case("python3 tools/rows.py --check > /dev/full", "No space left on device"),
    Case("python3 tools/house.py > /dev/full", "No space left on device"),
    Case("python3 tools/short_fronts.py > /dev/full", "No space left on device"),
    Case("python3 tools/short_fronts.py --help", "as records for tests/c/fronts.cpp"),
    Case("echo c u64 12 | python3 tools/reference_lines.py > /dev/full", "No space left on device"),
    Case("tests/shell_snippet.sh", "which make lexint builds"),
    Case("tests/shell_snippet.sh nowhere", "which make lexint builds"),
    Case("tests/jad.sh", JAD),
    Case("tests/jad.sh nowhere", JAD),
    Case("tests/tables/compare.py", LIBRARY),
    Case("tests/tables/compare.py --tables 0", RANGE),
    Case("tests/tables/compare.py --all --each 0", RANGE),
    Case("python3 tests/fixed/fuzz.py", "required: LIBRARY"),
    Case("python3 tests/fixed/fuzz.py build/libjadvolni.so", SHARED),
    Case("python3 tools/fuzz_c.py", SHARED),
    Case("python3 tools/c_calls.py", "usage: "),
    Case("python3 tools/c_calls.py build/libjadvolni.so", SHARED),
    Case("python3 tools/c_calls.py README.md", "this is no shared library: "),
    Case("python3 tests/fixed/fuzz.py README.md", "this is no shared library: "),
    Case("python3 tools/check_c.py --lib nowhere", "nowhere/libjadvolni.a: make lib makes one"),
    Case("bench/run . nowhere", f"nowhere/bench/workloads.txt: {NEITHER}"),
    Case("bench/run . ..", NEITHER),
    Case("bench/calls --keep . ..", "go each alone"),
    Case("bench/run .", "usage: "),
    Case("bench/run . .. x", "a number below 2^32"),
    Case("mkdir -p a/bench b/bench; echo job | tee a/bench/workloads.txt > b/bench/workloads.txt;"
         " bench/run a b", "a/bench/workloads.txt: no crate behind the name: job"),
    Case("echo 'job t' | tee a/bench/workloads.txt > b/bench/workloads.txt;"
         " bench/run a b > /dev/full", "bench/run: [Errno 28] No space left on device"),
    Case("rm -r a b; env RT=true BENCH_ROOM=/dev/null bench/tokens.py > out", "bench: "),
    Case("bench/tables.py --against nowhere", "there is no nowhere/build/libjadvolni.a: make lib"),
    Case("mkdir -p a/build; echo > a/build/libjadvolni.a;"
         " bench/tables.py --against a --megabytes 9; code=$?; rm -r a; exit $code",
         "--against and --megabytes go each alone"),
    Case("bench/tables.py --megabytes 100000000000", "MB, and not for 100000000000; TMPDIR names"),
    Case("make run RT=nowhere", "there is no `nowhere` on the PATH"),
    Case("make lib RT=nowhere", "there is no `nowhere` on the PATH"),
    Case("make test RT=nowhere", "there is no `nowhere` on the PATH"),
    Case("make bench RT=nowhere", "there is no `nowhere` on the PATH"),
    Case("make test-dist", "there is no dist/SHA256SUMS; make dist writes it"),
    Case("make dist", "make dist: "),
    Case("make tag", "no dist of this commit"),
    Case("make vendor", "DEST='' is no folder"),
    Case("make vendor DEST=.", "DEST=. is this repository"),
    Case("make vendor DEST=/proc", "/proc can't be written to"),
    Case("make vendor DEST=. WITH=nothing", "WITH has nothing, which is none of "),
    Case("make install PREFIX=usr", "PREFIX=usr: it has to begin with a slash"),
    Case("make install PREFIX=", "PREFIX=: it has to begin with a slash"),
    Case("tools/gate.sh --help", "usage: tools/gate.sh"),
    Case("env TMPDIR=/dev/null tools/gate.sh", "/dev/null/tmp."),
    Case("python3 tools/check_literals.py --help", "Reads each integer literal"),
    Case("packaging/dist.sh --help", "usage: packaging/dist.sh [check]"),
    Case("packaging/test_dist.sh --help", "usage: packaging/test_dist.sh"),
    Case("packaging/assembly.sh", "usage: packaging/assembly.sh jadvolni.S VERDICT"),
    Case("packaging/align.sh", "usage: packaging/align.sh FROM TO"),
    Case("packaging/align.sh nowhere out.a", "nowhere is no archive"),
    Case("packaging/align.sh README.md out.a", "README.md is no archive"),
    Case("packaging/align.sh docs out.a", "docs is no archive"),
    Case("echo '!<arch>' > a.a; packaging/align.sh a.a docs; code=$?; rm a.a; exit $code",
         "docs is no file"),
    Case("packaging/sbom.sh", "usage: packaging/sbom.sh VERSION COMMIT TOOLCHAIN VERDICT"),
    Case("packaging/as_user.sh", "usage: as_user.sh FOLDER [packages]"),
    Case("sed -i '$d' docs/CONTRACTS.md; cp docs/CONTRACTS.md kept; (ulimit -f 1;"
         " python3 tools/documents.py); cmp kept docs/CONTRACTS.md && echo 'the old page stays';"
         " mv kept docs/CONTRACTS.md; rm docs/*.new; exit 1 > out", "the old page stays"),
    # From here on the tree has a release of one file, and then a bad line.
    Case("mkdir dist; sha256sum /dev/null > dist/SHA256SUMS; packaging/test_dist.sh",
         "lacks: dist/*.deb (make dist writes them where debhelper and dh-python are)"),
    Case("env ROOT=docs packaging/test_dist.sh", "ROOT=docs has other files than a system"),
    Case("echo 'x | flag' >> tools/fields.txt; python3 tools/documents.py",
         "tools/fields.txt:25: not as the lines above: x | flag"),
    Case("sed -i '/^x |/d' tools/fields.txt; echo x >> bindings/errors.txt; make -s docs",
         "bindings/errors.txt:35: not as the lines above: x"),
    Case("sed -i '/^x$/d' bindings/errors.txt;"
         " echo '== nowhere: No language' >> tools/languages.txt; python3 tools/rows.py",
         "nowhere: fewer than 4 texts that are read, or that are refused"),
    Case("sed -i '/^== nowhere/d' tools/languages.txt; printf '\\377' >> tools/rows.txt;"
         " python3 tools/rows.py", "tools/rows.txt is no UTF-8"),
    Case("sed -i '$d' tools/rows.txt; echo ======= >> bench/causes.txt; python3 tools/documents.py",
         "neither a cause nor a case of one: ======="),
    Case("echo ======= >> bench/calls.tsv; python3 tools/documents.py",
         "no call with its counts: ======="),
    Case("bench/calls --library LICENSE-MIT > out", "no call with its counts: ======="),
    Case("sed -i '$d' bench/calls.tsv; sed -n '$p' bench/calls.tsv >> bench/calls.tsv;"
         " bench/calls --library LICENSE-MIT > out", "it stands there before: "),
    Case("sed -i 2d bench/calls.tsv; bench/calls --library LICENSE-MIT > out",
         "bench/calls.tsv:2: no names of the columns: "),
    Case("echo 'read | i64 | - | ledger rows=9' >> bench/calls.txt; bench/calls > out",
         "a made text has from 1 column on"),
    Case("sed -i '$d' bench/calls.txt; echo 'read | - | - | columns=2 | short' >> bench/calls.txt;"
         " bench/calls > out", "a made text needs rows=N: read"),
    Case("printf '== x\\nerror: y\\n' > tools/must_not_compile.txt;"
         " python3 tools/must_not_compile.py",
         "tools/must_not_compile.txt: x: there is no line `// here`"),
    Case("> tools/must_not_compile.txt; python3 tools/must_not_compile.py", "no program"),
    Case("rm tools/must_not_compile.txt; python3 tools/must_not_compile.py > out",
         "No such file or directory"),
    Case("sed -i '$d' bench/calls.txt; printf '\\377' >> bench/calls.txt; bench/calls > out",
         "bench/calls: 'ascii' codec"),
    Case("echo '# none' > bench/calls.txt; bench/calls > out", "bench/calls.txt: no case"),
    Case("rm bench/calls.txt; bench/calls --library LICENSE-MIT > out", "No such file"),
    Case("rm tools/fields.txt; python3 tools/documents.py > out",
         "tools/fields.txt: No such file"),
]


def wrong_of(case: Case, tree: str) -> str:
    """What is wrong with how a command ends in a tree; nothing where it says what it has to."""
    words = ["sh", "-c", case.command] if ">" in case.command else case.command.split()
    ran = subprocess.run(words, cwd=tree, stdin=subprocess.DEVNULL, timeout=60,
                         stdout=subprocess.PIPE, stderr=subprocess.STDOUT, errors="replace")
    if ran.returncode and case.message in ran.stdout and "Traceback" not in ran.stdout:
        return ""
    return f"{case.command}: status {ran.returncode}, without '{case.message}':\n{ran.stdout}"


def main() -> int:
    """Says what is wrong, and answers the exit status."""
    if sys.argv[1:]:
        print(__doc__, file=sys.stderr)
        return 2
    with tempfile.TemporaryDirectory() as folder:
        tree = os.path.join(folder, "a tree")
        unbuilt = shutil.ignore_patterns(".git", "build", "dist", "out", "target")
        shutil.copytree(TOP, tree, symlinks=True, ignore=unbuilt)
        wrong = list(filter(None, (wrong_of(case, tree) for case in CASES)))
    print(*wrong, f"{len(CASES)} commands that lack something, {len(wrong)} to mend", sep="\n")
    return 1 if wrong else 0


if __name__ == "__main__":
    sys.exit(main())
