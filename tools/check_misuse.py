"""What compilers say of calls that break a binding's conditions: a part of make test-c.

The files of FILES, in tests/c, have such calls by number, and what each compiler has to say of it.
Number 0 breaks none, and is compiled without a word, unless the standard is too old. misuse.rs of
tests/ has the like for Rust, whose compiler refuses them.
"""
from __future__ import annotations

import os
import re
import subprocess
from functools import partial
from typing import Iterator

from callers import (C_COMPILERS, CXX17, OPTIMISED, Failed, Place, Step, needs, run, source,
                     text_of)

FILES = {"misuse.c": ["-std=c99"], "any_integer.c": ["-std=c11"],
         "misuse.cpp": [CXX17, "-Wold-style-cast"]}
OLD = [("misuse.c", ["-std=c89"], "needs C99"), ("misuse.cpp", ["-std=c++14"], r"needs C\+\+17"),
       ("misuse.c", ["-xc++", "-std=c++98"], r"needs C\+\+11")]


def said_of(place: Place, compiler: str, file: str, misuse: str, how: list[str]) -> str:
    """What a compiler says of the call with that number."""
    command = [compiler, *how, *OPTIMISED, "-Wconversion", f"-DMISUSE={misuse}",
               f"-I{source('include')}", "-c", source("tests", "c", file), "-o", place.path("x.o")]
    return subprocess.run(command, capture_output=True, text=True, timeout=60).stderr


def misuses(place: Place, compiler: str) -> str:
    """A compiler reports each misuse, and nothing else."""
    needs(compiler)
    asked = [(file, "0", how, wanted) for file, how, wanted in OLD]
    for file, how in FILES.items():
        if said := said_of(place, compiler, file, "0", how):
            raise Failed(said)
        row = rf"MISUSE == (\d+) /\*.*(?:both|{compiler}): ([^,*]*[^,* ])"
        asked += [(file, misuse, how, wanted)
                  for misuse, wanted in re.findall(row, text_of("tests", "c", file))]
    for file, misuse, how, wanted in asked:
        said = said_of(place, compiler, file, misuse, how)
        if not re.search(wanted, said):
            raise Failed(f"{file} {misuse} by {how} lacks {wanted}:\n{said}")
    return f"{len(asked)} misuses"


def said_of_rust(place: Place, misuse: str) -> str:
    """What the compiler of Rust says of the call with that number."""
    built = place.path(os.path.join("target", "debug"))
    command = ["rustc", "--edition=2021", "--crate-type=lib", "--emit=metadata",
               f'--cfg=misuse="{misuse}"', "--extern", f"jadvolni={built}/libjadvolni.rlib",
               f"-Ldependency={built}/deps", source("tests", "misuse.rs"), "-o", place.path("x")]
    return subprocess.run(command, capture_output=True, text=True, timeout=60).stderr


def misuses_of_rust(place: Place) -> str:
    """The compiler of Rust refuses each misuse, and nothing else."""
    needs("cargo", "rustc")
    where = {**os.environ, "JADVOLNI_LIB_DIR": place.libraries,
             "CARGO_TARGET_DIR": place.path("target")}
    run(["cargo", "build", "--offline", "--locked", "--quiet", "--all-features"], where,
        source("bindings", "rust"))
    if said := said_of_rust(place, "0"):
        raise Failed(said)
    asked = re.findall(r'misuse = "(\d+)"\)\] // (\w+)', text_of("tests", "misuse.rs"))
    for misuse, wanted in asked:
        said = said_of_rust(place, misuse)
        if wanted not in said:
            raise Failed(f"misuse.rs {misuse} lacks {wanted}:\n{said}")
    return f"{len(asked)} misuses"


def steps(place: Place) -> Iterator[Step]:
    """A step for each compiler."""
    for compiler in C_COMPILERS:
        yield f"misuse of calls, {compiler}", partial(misuses, place, compiler)
    yield "misuse of calls, rustc", partial(misuses_of_rust, place)
