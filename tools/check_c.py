#!/usr/bin/env python3
"""Builds and runs the callers of the library in C, C++, Rust and Python: make test-c.

    python3 tools/check_c.py [--lib FOLDER]

FOLDER has libjadvolni.a and libjadvolni.so, which `make lib` puts into build. Each step is a line;
what a step needs and this machine doesn't have skips it, and the last line counts the steps that
passed, failed and were skipped. The exit status is 1 where one failed. Nothing outside a temporary
folder is written.
"""
from __future__ import annotations

import argparse
import glob
import os
import re
import shutil
import subprocess
import sys
import sysconfig
import tempfile
from functools import partial
from itertools import product
from typing import Callable, Dict, Iterable, Iterator, List

sys.dont_write_bytecode = True

import check_examples  # noqa: E402
import check_formats  # noqa: E402
import check_misuse  # noqa: E402
from c_calls import DECLARED  # noqa: E402
from callers import (C_COMPILERS, CXX17, CXX_COMPILERS, OPTIMISED, SANITIZED, TOP,  # noqa: E402
                     Failed, Place, Skipped, Step, build, needs, needs_shared, on_full_device, run,
                     source, text_of)
from row_data import TYPES, made  # noqa: E402

LIBDIR = "/usr/lib/x86_64-linux-gnu"
INSTALLED = ["PREFIX=/usr", f"LIBDIR={LIBDIR}"]
BUILT = ["-o", "build/libjadvolni.a", "-o", "build/symbols.map", "-o", "build/libjadvolni.so"]
FORMS = [what + under for what in ("", "_front", "_partial") for under in ("", "_with_format")]
FIXED = ["", "_front"]
# The structs of the header, by their names in the crate. jadvolni-sys has the header's names.
STRUCTS = {"result": "Outcome", "format": "FormatFields", "uint128": "Unsigned128",
           "int128": "Signed128", "table_result": "TableOutcome", "row_result": "RowOutcome",
           "cell_place": "CellPlace", "cells_result": "CellsOutcome",
           "bad_row": "BadRowFields", "skipping_result": "SkippingOutcome", "fixed": "FixedFields",
           "position": "LineAndColumn"}
OF_RUST = {"uint8_t": "u8", "uint32_t": "u32", "uint64_t": "u64", "int64_t": "i64",
           "size_t": "usize", "jadvolni_format": "jadvolni_format"}
COLUMN_TYPES = [f"{sign}{size}" for sign in "ui" for size in (8, 16, 32, 64)]
CALLS = sorted(["jadvolni_version", "jadvolni_format_error", "jadvolni_field_start",
                "jadvolni_parse_literal", "jadvolni_parse_typed_literal", "jadvolni_parse_table",
                "jadvolni_parse_table_skipping", "jadvolni_row_place", "jadvolni_row_cells",
                "jadvolni_fixed_error", "jadvolni_line_column", "jadvolni_fold_quotes"]
               + [f"jadvolni_parse_{name}_fixed{form}" for name, form in product(TYPES, FIXED)]
               + [f"jadvolni_parse_{name}{form}" for name, form in product(TYPES, FORMS)]
               + [f"jadvolni_parse_{name}_column" for name in COLUMN_TYPES])


# ---- what the library is

def exported(names: Iterable[str]) -> str:
    """How many names the library exports: they have to be those that the header declares."""
    found = sorted(names)
    if found != CALLS:
        raise Failed(f"exported alone or declared alone: {sorted(set(found) ^ set(CALLS))}")
    return f"{len(found)} names"


def out_of_line() -> List[str]:
    """The functions that docs/DECISIONS.md lists, by the command that it gives."""
    command = re.findall(r"`(grep [^`]*)` lists", text_of("docs", "DECISIONS.md"))
    return re.findall(r"fn (\w+)", run(["sh", "-c", *command], cwd=TOP))


def static_library(place: Place) -> str:
    """It needs nothing, has no data, exports the header's calls, and has the listed functions."""
    needs("nm")
    said = run(["nm", place.library("libjadvolni.a")])
    symbols = re.findall(r"(?m)^\w* +(\w) (core::)?(?:\w+::)*(\w+)", said)
    undefined = [name for kind, _, name in symbols if kind == "U"]
    data = [name for kind, _, name in symbols if kind in "dDbBcC"]
    apart = {name for kind, std, name in symbols if kind == "t" and not std} ^ set(out_of_line())
    if undefined or data or apart:
        raise Failed(f"undefined: {undefined}, data: {data}, made or listed alone: {sorted(apart)}")
    return exported(name for kind, _, name in symbols if kind == "T")


def functions_by_lines(place: Place) -> str:
    """Each function of the archive begins with a line of the processor's cache."""
    needs("objcopy", "readelf")
    said = run(["readelf", "-SW", place.library("libjadvolni.a")])
    found = re.findall(r"(?m) \.text\.\S+ .* (\d+)$", said)
    if set(found) != {"64"}:
        raise Failed(f"functions begin at multiples of {sorted(set(found))} bytes")
    return f"{len(found)} functions"


def aligned(place: Place) -> str:
    """align.sh only copies where objcopy fails or writes nothing, whatever the names are."""
    folder, script = place.path("aligned"), source("packaging", "align.sh")
    os.makedirs(folder)
    shutil.copy(place.library("libjadvolni.a"), os.path.join(folder, "-from.a"))
    endings = "exit 0", "exit 1", 'for to; do :; done; echo > "$to"'
    for ending in endings:
        with open(os.path.join(folder, "objcopy"), "w", encoding="ascii") as file:
            file.write(f"#!/bin/sh\n{ending}\n")
        os.chmod(file.name, 0o755)
        where = {**os.environ, "PATH": f"{folder}:{os.environ['PATH']}"}
        run([script, "-from.a", "-to.a"], env=where, cwd=folder)
        run(["cmp", "--", "-from.a", "-to.a"], cwd=folder)
    run([script, "-from.a", "-from.a"], cwd=folder)
    if sorted(os.listdir(folder)) != ["-from.a", "-to.a", "objcopy"]:
        raise Failed(f"left: {os.listdir(folder)}")
    return f"{len(endings)} copies"


def size_in_readme(library: str) -> str:
    """The size of the shared library: README's is within 5 in 100 of it."""
    size = os.path.getsize(library) / 1000
    stated = re.findall(r"(\d+) kB for the shared library", text_of("README.md"))
    if len(stated) != 1 or abs(int(stated[0]) / size - 1) > 0.05:
        raise Failed(f"it has {size:.0f} kB, and README.md says {stated}")
    return f"{size:.0f} kB"


def shared_library(place: Place) -> str:
    """It needs no library, has the SONAME, README's size, and the calls of the header alone."""
    needs("nm", "readelf")
    needs_shared(place)
    library = place.library("libjadvolni.so")
    said = run(["readelf", "-d", library])
    if "NEEDED" in said or "TEXTREL" in said or "[libjadvolni.so.0]" not in said:
        raise Failed(said)
    names = exported(re.findall(r" T (\S+)@@J", run(["nm", "-D", "--defined-only", library])))
    return f"{names}, {size_in_readme(library)}"


def flags_of_a_distribution(place: Place) -> str:
    """The shared library is linked with both CFLAGS and LDFLAGS."""
    needs("make", "cc", "readelf")
    tree = place.path("tree")
    os.makedirs(os.path.join(tree, "build"))
    for name in ("Makefile", "crates", "crates.txt", "include", "packaging", "tools"):
        os.symlink(source(name), os.path.join(tree, name))
    shutil.copy(place.library("libjadvolni.a"), os.path.join(tree, "build"))
    library = os.path.join(tree, "build", "libjadvolni.so")
    for variable in ("CFLAGS", "LDFLAGS"):
        run(["make", "-s", "-B", *BUILT[:2], "CC=cc", f"{variable}=-Wl,--build-id=0xabad1dea",
             "build/libjadvolni.so"], cwd=tree)
        if "abad1dea" not in run(["readelf", "-n", library]):
            raise Failed(f"{variable} is ignored")
    return "2 variables"


def worked_rows(place: Place) -> str:
    """The test vectors of tools/rows.txt, by the shared library."""
    needs_shared(place)
    rows = [sys.executable, source("tools", "c_calls.py"), place.library("libjadvolni.so")]
    return run(rows).strip()


# ---- layout

def fields_of_c(name: str) -> List[str]:
    """The fields of a struct of the header, in their order, as Rust writes them."""
    body = DECLARED.split(f"typedef struct jadvolni_{name} {{")[1].split("}")[0]
    fields = re.findall(r"(\w+) (\w+)(?:\[(\d+)\])?;", body)
    return [f"{field}: [{OF_RUST[kind]}; {count}]" if count else f"{field}: {OF_RUST[kind]}"
            for kind, field, count in fields]


def fields_of_rust(text: str, name: str) -> List[str]:
    """The fields of a struct that keeps its order, and none of another."""
    head = r"#\[repr\(C\)\]\n#\[derive[^\n]*\npub struct "
    found = re.search(head + name + r" {\n(.*?)\n}", text, re.S)
    return re.findall(r"(?m)^    pub (.*),$", found[1]) if found else []


def layout() -> str:
    """The header, the crate and jadvolni-sys have the same fields in the same order, and calls."""
    crate = "".join(text_of("crates", "jadvolni", "src", f"{name}.rt")
                    for name in ("outcome", "format", "halves", "tables", "bad_rows",
                                 "skipping", "row_cells", "fixed", "lines"))
    crate += text_of("crates", "lexical_tables", "src", "row_cells.rt")
    crate = crate.replace("pub integer: FormatFields", "pub integer: jadvolni_format")
    bound = text_of("bindings", "rust", "jadvolni-sys", "src", "lib.rs")
    for name, of_crate in STRUCTS.items():
        wanted = fields_of_c(name)
        for text, other in ((crate, of_crate), (bound, f"jadvolni_{name}")):
            found = fields_of_rust(text, other)
            if found != wanted or not found:
                raise Failed(f"{other} has {found}, and jadvolni_{name} {wanted}")
    return f"{len(STRUCTS)} structs, {exported(re.findall(r'pub fn (jadvolni_[a-z0-9_]+)', bound))}"


# ---- callers that count their own checks

def call(place: Place, caller: str, compiler: str, flags: List[str], shared: bool = False) -> str:
    """Builds and runs one."""
    return run([build(place, compiler, caller, flags, shared)], env=place.environment()).strip()


def short_fronts(place: Place) -> str:
    """The answers of from_chars under formats, beside those of the reference."""
    program = build(place, "g++", "tests/c/fronts.cpp", [CXX17, *OPTIMISED])
    wanted = subprocess.run([sys.executable, source("tools", "short_fronts.py")], check=True,
                            stdout=subprocess.PIPE, timeout=900).stdout
    return run([program], given=wanted).strip()


def messages(place: Place) -> str:
    """The names and messages of the header are those of bindings/errors.txt."""
    said = run([build(place, "cc", "tests/c/messages.c", OPTIMISED)]).splitlines()
    listed = [line for line in text_of("bindings", "errors.txt").splitlines() if line[0] != "#"]
    if said != listed:
        raise Failed(f"said or listed alone: {sorted(set(said) ^ set(listed))}")
    return f"{len(said)} messages"


def calls(place: Place) -> Iterator[Step]:
    """Each caller, by each of its compilers, with both libraries and under sanitizers."""
    c_callers = ("calls.c", "columns.c", "fixed.c", "random_columns.c", "skipping.c", "tables.c",
                 "table_cells.c", "table_texts.c")
    for compiler, name in product(C_COMPILERS, c_callers):
        step, name = partial(call, place, f"tests/c/{name}", compiler), f"{name}, {compiler}"
        yield f"C99, {name}", partial(step, ["-std=c99", *OPTIMISED])
        yield f"C11 and the shared library, {name}", partial(step, ["-std=c11", *OPTIMISED], True)
        yield f"C99 under sanitizers, {name}", partial(step, ["-std=c99", *SANITIZED])
    bare, racing = ["-fno-exceptions", "-fno-rtti", *OPTIMISED], ["-fsanitize=thread", "-g", "-O1"]
    cxx_callers = ("wrapper.cpp", "skipping.cpp", "tables.cpp", "blocks.cpp", "by_header.cpp",
                   "faults.cpp", "texts.cpp", "threads.cpp")
    for compiler, name in product(CXX_COMPILERS, cxx_callers):
        step, name = partial(call, place, f"tests/c/{name}", compiler), f"{name}, {compiler}"
        yield f"C++17, {name}", partial(step, [CXX17, *OPTIMISED])
        yield f"C++17 and the shared library, {name}", partial(step, [CXX17, *OPTIMISED], True)
        yield f"C++17 under sanitizers, {name}", partial(step, [CXX17, *SANITIZED])
        flags = racing if "threads" in name else bare
        yield f"C++17 with {flags[0]}, {name}", partial(step, [CXX17, *flags])


# ---- where users look

def install(place: Place) -> str:
    """Installs below a folder, with a LIBDIR of several parts: the licences too."""
    needs("make", "install")
    needs_shared(place)
    below = place.path("installed")
    run(["make", "-s", *BUILT, "install-lib", f"DESTDIR={below}", *INSTALLED], cwd=TOP)
    share = f"{below}/usr/share"
    pages = {name[:-2] for name in os.listdir(f"{share}/man/man3")}
    named = {*CALLS, *re.findall(r"jadvolni\w*", text_of("packaging", "jadvolni.3.in"))}
    parts = {f"{it}_part" for it in CALLS if re.fullmatch(r"jadvolni_parse_\w+_column", it)}
    wrong = ({*CALLS} | parts) - pages | (pages - named - parts)
    if wrong:
        raise Failed(f"no page, or not a word of it there: {sorted(wrong)}")
    missing = {"LICENSE-APACHE", "LICENSE-MIT", "NOTICE"} - set(os.listdir(f"{share}/doc/jadvolni"))
    if missing:
        raise Failed(f"not installed: {sorted(missing)}")
    refused = "! make -n install-lib PREFIX="
    run(["sh", "-c", f"{refused}'~/x' && {refused} && {refused}'/x&y' && {refused}'/x\ny'"
         f" && {refused}/x DESTDIR='/x`y`' && {refused}/x DESTDIR='/x\ny'"], cwd=TOP)
    return f"{sum(len(files) for _, _, files in os.walk(below))} files"


def uninstall(place: Place) -> str:
    """Nothing is left but what is the user's own."""
    needs_shared(place)
    below = place.path("installed")
    own = shutil.copy(__file__, f"{below}/usr/share/doc/jadvolni/own")
    run(["make", "-s", "uninstall-lib", f"DESTDIR={below}", *INSTALLED], cwd=TOP)
    left = [os.path.join(folder, file) for folder, _, files in os.walk(below) for file in files]
    if left != [own] or os.path.exists(f"{below}{LIBDIR}/cmake/jadvolni"):
        raise Failed(f"left: {left}")
    return "1 file"


def by_pkg_config(place: Place, compiler: str, caller: str, words: List[str], wanted: str) -> str:
    """An example, with the flags that pkg-config prints."""
    needs(compiler, "pkg-config")
    needs_shared(place)
    below = place.path("installed")
    where = {**os.environ, "PKG_CONFIG_PATH": f"{below}{LIBDIR}/pkgconfig",
             "LD_LIBRARY_PATH": f"{below}{LIBDIR}", "PKG_CONFIG_SYSROOT_DIR": below,
             "PKG_CONFIG_ALLOW_SYSTEM_CFLAGS": "1", "PKG_CONFIG_ALLOW_SYSTEM_LIBS": "1"}
    flags = run(["pkg-config", "--cflags", "--libs", "jadvolni"], env=where).split()
    program = place.path("example")
    run([compiler, *OPTIMISED, source(caller), "-o", program, *flags])
    return answer(run([program, *words], env=where), wanted)


def by_cmake(place: Place, target: str) -> str:
    """An example, by find_package."""
    needs("cmake", "cc")
    needs_shared(place)
    project, built = place.path("project"), place.path(f"built_{target}")
    os.makedirs(project, exist_ok=True)
    with open(os.path.join(project, "CMakeLists.txt"), "w", encoding="utf-8") as file:
        file.write("cmake_minimum_required(VERSION 3.13)\nproject(caller C)\n"
                   "find_package(jadvolni 0.2 REQUIRED)\n"
                   f"add_executable(caller {TOP}/examples/c/ten_lines.c)\n"
                   f"target_link_libraries(caller jadvolni::{target})\n")
    run(["cmake", "-S", project, "-B", built,
         f"-DCMAKE_PREFIX_PATH={place.path('installed')}/usr",
         "-DCMAKE_LIBRARY_ARCHITECTURE=x86_64-linux-gnu"])
    run(["cmake", "--build", built])
    return answer(run([os.path.join(built, "caller")]), "err Overflow 19\n")


def answer(said: str, wanted: str) -> str:
    """What a program says, which has to be what is wanted."""
    if said != wanted:
        raise Failed(f"wrote {said!r}, and not {wanted!r}")
    return said.strip()


# ---- documents

def documents() -> str:
    """The examples of documents are those that are run."""
    whole = text_of("examples", "c", "ten_lines.c").partition("*/\n")[2]
    tested = text_of("tests", "c", "columns.c")
    loop = tested[tested.index("    size_t kept"):tested.index("    return 1;\n")]
    amounts = text_of("tests", "c", "fixed.c")
    shown = amounts[amounts.index("    uint64_t units"):amounts.index("    return strcmp")]
    manual = text_of("packaging", "jadvolni.3.in").replace("\\e", "\\")
    in_header = text_of("include", "jadvolni.h").replace("\n *     ", "\n    ")
    for name, text, example in (
        ("README.md", text_of("README.md"), f"```c\n{whole}```\n"),
        ("packaging/jadvolni.3.in", manual, whole), ("packaging/jadvolni.3.in", manual, loop),
        ("include/jadvolni.h", in_header, loop), ("include/jadvolni.h", in_header, shown),
    ):
        if example not in text:
            raise Failed(f"{name} lacks this example:\n{example}")
    return "5 examples"


def man_pages() -> str:
    """groff finds nothing to say of the manual pages."""
    needs("groff")
    for page in ("jadvolni.3.in", "lexint.1.in", "jad.1.in"):
        command = ["groff", "-man", "-Tutf8", "-wall", source("packaging", page)]
        done = subprocess.run(command, capture_output=True, text=True, timeout=60)
        if done.returncode or done.stderr:
            raise Failed(done.stderr)
    return "3 pages"


# ---- Rust and Python

def refuse_words(place: Place) -> None:
    """The examples in Rust end with status 2 where words are missing, also if they can't say so."""
    for name in ("bad_rows", "settings", "table_threads"):
        program = place.path(f"target/debug/examples/{name}")
        for errors in (os.devnull, "/dev/full"):
            with open(errors, "wb") as device:
                done = subprocess.run([program], stdin=subprocess.DEVNULL, stderr=device,
                                      timeout=60)
            if done.returncode != 2:
                raise Failed(f"{program} ended with {done.returncode} without words, on {errors}")


def start_no_thread(place: Place) -> None:
    """The example in threads reads all in one, where none has memory for its stack."""
    path, program = place.path("rows"), place.path("target/debug/examples/table_threads")
    with open(path, "w", encoding="ascii") as file:
        file.write("1;rent;-5\n2;;7\n3;;\n")
    where = {**os.environ, "RUST_MIN_STACK": str(1 << 50)}
    answer(run([program, path, "3"], where), "3 rows, the greatest amount is 7\n")


def cargo(place: Place) -> str:
    """The tests, examples and documents of the two Rust crates, without the network."""
    needs("cargo", "cc")
    where = {**os.environ, "JADVOLNI_LIB_DIR": place.libraries,
             "CARGO_TARGET_DIR": place.path("target"), "CARGO_NET_OFFLINE": "true"}
    alone, crates = ["--offline", "--locked", "--quiet"], source("bindings", "rust")
    said = run(["cargo", "test", *alone, "--all-features"], where, crates)
    answer(run(["cargo", "run", *alone, "--example", "ten_lines"], where, crates),
           "err Overflow 19\n")
    on_full_device(place.path("target/debug/examples/ten_lines"))
    settings = ["cargo", "run", *alone, "--example", "settings", "80", "7"]
    answer(run(settings, where, crates), "port 80, 7 percent\n")
    page = run(["cargo", "run", *alone, "--features=std", "--example", "bad_rows", "--", "--help"],
               where, crates)
    answer(page.partition("\n")[0], "usage: bad_rows NAME < FILE")
    refuse_words(place)
    start_no_thread(place)
    passed = re.findall(r"(?m)^test result: ok. ([0-9]+) passed", said)
    if shutil.which("cargo-clippy"):
        run(["cargo", "clippy", *alone, "--all-features", "--all-targets", "--", "-D", "warnings"],
            where, crates)
    return f"{sum(map(int, passed))} tests"


def serde(place: Place) -> str:
    """Fields that serde reads, where Debian's package of it is installed."""
    needs("cargo", "cc")
    registry = "/usr/share/cargo/registry"
    if not all(glob.glob(f"{registry}/{name}-1.*") for name in ("serde", "serde_json")):
        raise Skipped("there is no librust-serde-dev and librust-serde-json-dev")
    crate = shutil.copytree(source("tests", "rust_serde"), place.path("rust_serde"))
    os.symlink(source("bindings", "rust"), os.path.join(crate, "rust"))
    sources = (f'source.debian.directory = "{registry}"',
               'source.crates-io.replace-with = "debian"')
    given = [word for each in sources for word in ("--config", each)]
    where = {**os.environ, "JADVOLNI_LIB_DIR": place.libraries,
             "CARGO_TARGET_DIR": place.path("target")}
    said = run(["cargo", "test", "--offline", "--quiet", *given], where, crate)
    return f"{sum(map(int, re.findall(r'ok. ([0-9]+) passed', said)))} tests"


# The binding's tests of what is hostile, or asks most of memory: sanitizers see what they touch.
WATCHED = ["test_amounts", "test_arrow", "test_header", "test_hostile", "test_literals",
           "test_tables", "test_texts"]


def binding_for_python(place: Place, folder: str, flags: str) -> Dict[str, str]:
    """Makes the module as its wheel has it, in a folder: the environment in which Python finds it.
    """
    needs("cc")
    if sys.version_info < (3, 11):
        raise Skipped("it needs Python 3.11")
    if not os.path.exists(os.path.join(sysconfig.get_paths()["include"], "Python.h")):
        raise Skipped("Python's headers are not installed")
    packed = place.path(folder)
    paths = [packed, *filter(None, [os.environ.get("PYTHONPATH")])]
    where = {**os.environ, "JADVOLNI_LIBRARY": place.library("libjadvolni.a"),
             "PYTHONDONTWRITEBYTECODE": "1", "PYTHONPATH": os.pathsep.join(paths)}
    os.makedirs(packed)
    wheel = "import sys, build_wheel; build_wheel.build_wheel(sys.argv[1])"
    built = {**where, "CFLAGS": f"{os.environ.get('CFLAGS', '')} {flags}"}
    run([sys.executable, "-c", wheel, packed], built, source("bindings", "python"))
    for name in os.listdir(packed):
        shutil.unpack_archive(os.path.join(packed, name), packed, "zip")
    return where


def tests_of_python(where: Dict[str, str], tests: List[str]) -> str:
    """Runs tests of the binding: how many there were, and how they ended."""
    done = subprocess.run([sys.executable, "-W", "error", "-m", "unittest", *tests], timeout=900,
                          capture_output=True, text=True, env=where,
                          cwd=source("bindings", "python", "tests"))
    if done.returncode or "Ran 0 tests" in done.stderr:
        raise Failed(done.stderr)
    return "; ".join(done.stderr.strip().splitlines()[-3::2])


def python(place: Place) -> str:
    """The tests of the binding for Python."""
    return tests_of_python(binding_for_python(place, "python", ""), ["discover"])


def python_sanitized(place: Place) -> str:
    """Some of them, over an extension that sanitizers watch."""
    needs("cc")
    libraries = [run(["cc", f"-print-file-name={name}.so"]).strip()
                 for name in ("libasan", "libubsan")]
    if not all(map(os.path.isabs, libraries)):
        raise Skipped("cc has no sanitizers")
    flags = "-g -O1 -fsanitize=address,undefined -fno-sanitize-recover=all"
    where = binding_for_python(place, "python_sanitized", flags)
    # (Python keeps memory to its end, and its own allocator would hide what is touched.)
    options = {"LD_PRELOAD": " ".join(libraries), "PYTHONMALLOC": "malloc",
               "ASAN_OPTIONS": "detect_leaks=0:allocator_may_return_null=1"}
    return tests_of_python({**where, **options}, WATCHED)


# ---- all of them

def steps(place: Place) -> Iterator[Step]:
    """The steps, in their order."""
    example = partial(by_pkg_config, place)
    yield "layout of header and crates", layout
    yield "what the static library is", partial(static_library, place)
    yield "where functions of the static library begin", partial(functions_by_lines, place)
    yield "copies of the static library", partial(aligned, place)
    yield "what the shared library is", partial(shared_library, place)
    yield "flags of a distribution", partial(flags_of_a_distribution, place)
    yield "test vectors, by the shared library", partial(worked_rows, place)
    yield "messages of the header", partial(messages, place)
    yield from calls(place)
    yield "fronts under formats, beside the reference", partial(short_fronts, place)
    yield from check_misuse.steps(place)
    yield from check_formats.steps(place)
    yield from check_examples.steps(place)
    yield "make install-lib", partial(install, place)
    yield "ten lines of C by pkg-config", partial(
        example, "cc", "examples/c/ten_lines.c", [], "err Overflow 19\n")
    yield "colours in C++ by pkg-config", partial(
        example, "c++", "examples/cpp/colour.cpp", ["1e90FF"], "30 144 255\n")
    yield "ten lines of C by CMake, shared", partial(by_cmake, place, "jadvolni")
    yield "ten lines of C by CMake, static", partial(by_cmake, place, "static")
    yield "make uninstall-lib", partial(uninstall, place)
    yield "manual pages", man_pages
    yield "examples in documents", documents
    yield "Rust", partial(cargo, place)
    yield "Rust and serde", partial(serde, place)
    yield "Python", partial(python, place)
    yield "Python under sanitizers", partial(python_sanitized, place)


def outcome_of(name: str, step: Callable[[], str]) -> str:
    """Runs a step, and says how it ended."""
    try:
        said = step()
        outcome = "failed" if re.match("$|0 ", said) else "passed"  # (nothing was tried)
    except Skipped as why:
        outcome, said = "skipped", str(why)
    except (Failed, OSError, subprocess.SubprocessError) as why:
        outcome, said = "failed", str(why)
    print(f"{outcome}: {name}: {said}", flush=True)
    return outcome


def main() -> int:
    """The command line."""
    parser = argparse.ArgumentParser()
    parser.add_argument("--lib", default=source("build"))
    libraries = os.path.abspath(parser.parse_args().lib)
    made(os.path.join(libraries, "libjadvolni.a"), "lib")
    with tempfile.TemporaryDirectory() as folder:
        # A program that was linked with the shared library looks for it by its SONAME.
        linked = os.path.join(folder, "lib")
        os.makedirs(linked)
        for name in ("libjadvolni.a", "libjadvolni.so"):
            if os.path.exists(os.path.join(libraries, name)):
                shutil.copy(os.path.join(libraries, name), linked)
        os.symlink("libjadvolni.so", os.path.join(linked, "libjadvolni.so.0"))
        outcomes = [outcome_of(*step) for step in steps(Place(linked, folder))]
    counts = {word: outcomes.count(word) for word in ("passed", "failed", "skipped")}
    print("callers of the library: " + ", ".join(f"{n} {word}" for word, n in counts.items()))
    return 1 if counts["failed"] or not counts["passed"] else 0


if __name__ == "__main__":
    sys.exit(main())
