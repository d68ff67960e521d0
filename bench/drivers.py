"""Builds the drivers: the measured library, proved in a tree of its own, that for C, and peers."""
from __future__ import annotations

import fcntl
import functools
import glob
import os
import shutil
import subprocess
import sys
import tempfile

import loops

HERE = os.path.dirname(os.path.abspath(__file__))
TOP = os.path.dirname(HERE)
CRATES = ("lexical_util", "lexical_digits", "lexical_parse_integer")
# Their lines of crates.txt.
LINES = ("lexical_util:\nlexical_digits: lexical_util\n"
         "lexical_parse_integer: lexical_util lexical_digits\n")
# The programs that the build needs.
NEEDED = (os.environ.get("RT", "rt"), "cargo", "make", "cc", "c++", "ar")
# How many drivers are linked, each with its code sixteen bytes further on: that moves times.
PLACES = 4
# At how many places a program may make a call: what a compiler puts in place at one, it may not at
# many.
SITES = 20
# What stands before all other code. The linker would leave out what nothing names.
BEFORE_ALL = """std::arch::global_asm!(
    ".text", ".p2align 4", ".globl before_all", "before_all: .skip SIZE, 0xcc", "ret"
);

unsafe extern "C" {
    fn before_all();
}

#[used]
static BEFORE_ALL: unsafe extern "C" fn() = before_all;
"""
# lexical-core, where it is there to be compiled, and where it isn't.
WITH_LEXICAL = """[dependencies]
lexical-core = { version = "*", default-features = false, features = ["std"], optional = true }
"""
WITHOUT_LEXICAL = """[features]
lexical-core = []
"""
CONFIG = """[source.crates-io]
replace-with = "debian"

[source.debian]
directory = "{registry}"
"""
# Where Debian's packages put the sources of Rust crates.
REGISTRY = os.environ.get("BENCH_REGISTRY", "/usr/share/cargo/registry")

CARGO = """[package]
name = "driver"
version = "0.0.0"
edition = "2024"

{lexical}

[profile.release]
opt-level = 3
codegen-units = 1
lto = "fat"
panic = "abort"
"""


def run(words: list[str], folder: str, **more: str) -> None:
    """Runs a command, and ends this program where it fails."""
    if subprocess.run(words, cwd=folder, env={**os.environ, **more}).returncode:
        sys.exit(f"bench: {' '.join(words)} failed")


@functools.cache
def room() -> str:
    """The folder that the build takes: outside of the repository, whose gate reads its files. Two
    runs at once would measure each other's programs."""
    ours = os.path.join(tempfile.gettempdir(), f"jadvolni-bench-{os.getuid()}")
    taken = os.environ.get("BENCH_ROOM") or ours
    os.makedirs(taken, mode=0o700, exist_ok=True)
    if taken == ours and os.lstat(taken).st_uid != os.getuid():
        sys.exit(f"bench: {taken} is another user's: BENCH_ROOM names another folder")
    try:
        fcntl.flock(os.open(taken, os.O_RDONLY), fcntl.LOCK_EX | fcntl.LOCK_NB)
    except BlockingIOError:
        sys.exit(f"bench: another run takes {taken}")
    return taken


def library(room: str, sites: int) -> None:
    """The measured library, as `libbench_calls.a`, with each call at `sites` places."""
    tree = os.path.join(room, "tree")
    os.makedirs(os.path.join(tree, "crates", "bench_calls", "src"), exist_ok=True)
    for crate in CRATES:
        copy(os.path.join(TOP, "crates", crate), os.path.join(tree, "crates", crate))
    write(os.path.join(tree, "crates.txt"),
          LINES + "bench_calls staticlib: lexical_util lexical_parse_integer\n")
    folder = os.path.join(tree, "crates", "bench_calls")
    write(os.path.join(folder, "src", "lib.rt"), loops.source(sites))
    run([os.environ.get("RT", "rt"), "lib"], folder)
    shutil.copy(os.path.join(folder, "out", "libbench_calls.a"), os.path.join(room, "driver"))


def library_for_c(folder: str) -> None:
    """The library that C calls, `libjadvolni.a`, as `make lib` builds it for its users."""
    run(["make", "-s", "lib"], TOP)
    shutil.copy(os.path.join(TOP, "build", "libjadvolni.a"), folder)


def copy(source: str, to: str) -> None:
    """A crate, and at first its proofs. What it has no more is removed from an older copy."""
    for part in ("src", "specs", "proofs"):
        shutil.rmtree(os.path.join(to, part), ignore_errors=True)
        shutil.copytree(os.path.join(source, part), os.path.join(to, part))
    if os.path.isdir(os.path.join(source, "out")) and not os.path.isdir(os.path.join(to, "out")):
        shutil.copytree(os.path.join(source, "out"), os.path.join(to, "out"))


def write(path: str, text: str) -> None:
    """Writes a file."""
    with open(path, "w", encoding="utf-8") as file:
        file.write(text)


def linked(at: str, kind: str, place: int, words: list[str], flags: str) -> str:
    """The driver of a kind whose code is moved by a multiple of sixteen bytes."""
    write(os.path.join(at, "src", "place.rs"), BEFORE_ALL.replace("SIZE", str(16 * place)))
    run(words, at, RUSTFLAGS=flags)
    kept = os.path.join(at, f"driver-{kind}-{place}")
    shutil.copy(os.path.join(at, "target", "release", "driver"), kept)
    return kept


def write_package(at: str, has_lexical: bool) -> None:
    """The driver's sources, and what cargo has to know."""
    for name in ("main.rs", "peers.rs", "sets.rs", "texts.rs"):
        shutil.copy(os.path.join(HERE, "driver", name), os.path.join(at, "src", name))
    lexical = WITH_LEXICAL if has_lexical else WITHOUT_LEXICAL
    write(os.path.join(at, "Cargo.toml"), CARGO.format(lexical=lexical))
    os.makedirs(os.path.join(at, ".cargo"), exist_ok=True)
    config = CONFIG.format(registry=REGISTRY) if has_lexical else ""
    write(os.path.join(at, ".cargo", "config.toml"), config)


def drivers() -> tuple[list[str], list[str], list[str]]:
    """(the drivers' paths, those with each call at many places, what was left out and why)."""
    at = os.path.join(room(), "driver")
    os.makedirs(os.path.join(at, "src"), exist_ok=True)
    library_for_c(at)
    run(["c++", "-std=gnu++20", "-O3", "-march=x86-64-v2", f"-I{os.path.join(TOP, 'include')}",
         "-c", os.path.join(HERE, "driver", "peers.cpp"), "-o", "peers.o"], at)
    run(["ar", "crs", "libpeers.a", "peers.o"], at)
    has_lexical = bool(glob.glob(f"{REGISTRY}/lexical-core-*"))
    write_package(at, has_lexical)
    words = ["cargo", "build", "--release", "--offline", "--quiet"]
    words += ["--features", "lexical-core"] if has_lexical else []
    linked_in = " ".join(f"-l static={name}" for name in ("bench_calls", "peers", "jadvolni"))
    flags = f"-C target-cpu=x86-64-v2 -L native={at} {linked_in} -l stdc++"
    lacking = f"lexical-core: {REGISTRY} has none (Debian's librust-lexical-core-dev)"
    left_out = [] if has_lexical else [lacking]
    found = []
    for kind, sites in (("one", 1), ("many", SITES)):
        library(room(), sites)
        found.append([linked(at, kind, place, words, flags) for place in range(PLACES)])
    return found[0], found[1], left_out
