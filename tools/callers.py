"""What the checks of the library's callers share: where they work, how they build and run one."""
from __future__ import annotations

import os
import shutil
import subprocess
from typing import Callable, Dict, List, NamedTuple, Optional, Sequence, Tuple

TOP = os.path.dirname(os.path.dirname(os.path.abspath(__file__)))
STRICT = ["-Wall", "-Wextra", "-pedantic", "-Werror", "-pthread"]
OPTIMISED = [*STRICT, "-O2"]
SANITIZED = [*STRICT, "-g", "-O1", "-fsanitize=address,undefined", "-fno-sanitize-recover=all"]
C_COMPILERS, CXX_COMPILERS = ("gcc", "clang"), ("g++", "clang++")
CXX17 = "-std=c++17"

# A name, and what to do: it answers what it has seen.
Step = Tuple[str, Callable[[], str]]


class Failed(Exception):
    """A step that did not end as it has to."""


class Skipped(Exception):
    """A step that this machine lacks something for."""


class Place(NamedTuple):
    """The folder of the libraries, and one to write in."""

    libraries: str
    folder: str

    def path(self, name: str) -> str:
        """A file of the folder to write in."""
        return os.path.join(self.folder, name)

    def library(self, name: str) -> str:
        """A file of the folder of the libraries."""
        return os.path.join(self.libraries, name)

    def environment(self) -> Dict[str, str]:
        """The environment of a caller: the shared library is found by its SONAME."""
        return {**os.environ, "LC_ALL": "C", "LD_LIBRARY_PATH": self.libraries}


def source(*parts: str) -> str:
    """A file of the repository."""
    return os.path.join(TOP, *parts)


def text_of(*parts: str) -> str:
    """What a file of the repository says."""
    with open(source(*parts), encoding="utf-8") as file:
        return file.read()


def needs(*tools: str) -> None:
    """Skips the step where one of the tools isn't there."""
    for tool in tools:
        if shutil.which(tool) is None:
            raise Skipped(f"there is no {tool}")


def needs_shared(place: Place) -> None:
    """Skips the step where no compiler was there to make the shared library."""
    if not os.path.exists(place.library("libjadvolni.so")):
        raise Skipped("no C compiler has made the shared library")


def run(command: Sequence[str], env: Optional[Dict[str, str]] = None, cwd: Optional[str] = None,
        given: bytes = b"") -> str:
    """What a command writes to standard output. It has to end with 0."""
    done = subprocess.run(command, input=given, stdout=subprocess.PIPE, stderr=subprocess.PIPE,
                          timeout=900, env=env, cwd=cwd)
    said, errors = (stream.decode(errors="replace") for stream in (done.stdout, done.stderr))
    if done.returncode:
        raise Failed(f"{' '.join(command)}\nended with {done.returncode}\n{said}{errors}")
    return said


def on_full_device(program: str) -> None:
    """Runs a program that has to say that its output is refused, and to end with status 1."""
    with open("/dev/full", "wb") as full:
        done = subprocess.run([program], stdout=full, stderr=subprocess.PIPE, text=True, timeout=60)
    if done.returncode != 1 or "No space left on device" not in done.stderr:
        raise Failed(f"{program} ended with {done.returncode} on a full device:\n{done.stderr}")


def build(place: Place, compiler: str, caller: str, flags: List[str], shared: bool = False) -> str:
    """Compiles a caller, and links it with one of the libraries. Answers the program's path."""
    needs(compiler)
    link = [place.library("libjadvolni.a")]
    if shared:
        needs_shared(place)
        link = [f"-L{place.libraries}", "-ljadvolni", f"-Wl,-rpath,{place.libraries}"]
    program = place.path(os.path.splitext(os.path.basename(caller))[0])
    run([compiler, *flags, f"-I{source('include')}", source(caller), "-o", program, *link])
    return program
