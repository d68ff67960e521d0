#!/usr/bin/env python3
"""Runs the built program over real devices that refuse, and with allocations that fail.

    tools/devices.py [PROGRAM..]

With no PROGRAM it takes what a gate has built, crates/lexint/out/lexint and lexint.by-rattle. It
prints a line for each run that doesn't end as it has to, and last how many did; where one didn't,
the status is 1. Where there is no compiler of C, no allocation is refused by its number.
"""
from __future__ import annotations

import array
import contextlib
import fcntl
import os
import resource
import shutil
import signal
import socket
import subprocess
import sys
import tempfile
import termios
import time
from typing import IO, Callable, Dict, List, NamedTuple, Optional, Union

from row_data import BUILT, TOP, runnable

CRATE = os.path.join(TOP, "crates", "lexint")

READ = b"lexint: read failed\n"
WRITE = b"lexint: write failed\n"
MEMORY = b"lexint: out of memory\n"
WAITING = b"lexint: waiting for lines; Ctrl-D on an empty line ends them\n"

PAGE = 4096
MEBIBYTE = 1 << 20
SECONDS = 60
# No run makes this many allocations.
MOST_ALLOCATIONS = 100
# fcntl names it from Python 3.10 on.
F_SETPIPE_SZ = 1031

Device = Union[int, IO[bytes], None]


class Ended(NamedTuple):
    """How a run ended, and what it wrote to standard output and standard error."""

    status: int
    out: bytes
    err: bytes


class Known(NamedTuple):
    """An input, and the output that it has."""

    given: bytes
    wanted: bytes


def stored(name: str) -> bytes:
    """A file of the stored run."""
    with open(os.path.join(CRATE, name), "rb") as file:
        return file.read()


STORED = Known(stored("stdin"), stored("stdout"))
# its answers are longer than the program's gathering array
LONG = Known(STORED.given * 1000, STORED.wanted * 1000)
# its lines are longer than the program's first buffer for its input, and than the next ones
GROWING = Known(b"c u64 " + b"0" * 140_000 + b"7\n", b"ok 7\n")


def limit(kind: int, size: int) -> Callable[[], None]:
    """What sets a limit in the program's process before it starts."""
    def set_limit() -> None:
        resource.setrlimit(resource.RLIMIT_CORE, (0, 0))
        resource.setrlimit(kind, (size, size))
    return set_limit


def bytes_in(pipe: int) -> int:
    """How many bytes wait in a pipe."""
    count = array.array("i", [0])
    fcntl.ioctl(pipe, termios.FIONREAD, count)
    return count[0]


class Runs:
    """The runs of a program, and what was wrong with them."""

    def __init__(self, program: str) -> None:
        """PROGRAM: the path of the program."""
        self.program = program
        self.count = 0
        self.failures: List[str] = []

    def fail(self, what: str) -> None:
        """Notes what is wrong."""
        self.failures.append(f"{os.path.basename(self.program)}: {what}")

    def expect(self, what: str, got: Ended, want: Ended) -> None:
        """Notes a run, and whether it ended as wanted."""
        self.count += 1
        if got != want:
            said, wanted = ([str(it)[:60] for it in ended] for ended in (got, want))
            self.fail(f"{what}: it ended with {said}, and not {wanted}")

    def run(self, given: Optional[bytes] = None, stdin: Device = None,
            stdout: Device = subprocess.PIPE, before: Optional[Callable[[], None]] = None,
            more: Optional[Dict[str, str]] = None) -> Ended:
        """Runs the program over the given input or devices, and in an environment that has MORE.
        Signals that a refused write raises stay ignored, as a shell's trap would have it, so that
        the program itself meets the refusal."""
        ran = subprocess.run([self.program], input=given, stdin=stdin, stdout=stdout,
                             stderr=subprocess.PIPE, preexec_fn=before, restore_signals=False,
                             timeout=SECONDS, env={**os.environ, **(more or {})})
        return Ended(ran.returncode, ran.stdout or b"", ran.stderr)

    def start(self, stdin: Device, stdout: Device = subprocess.PIPE) -> subprocess.Popen[bytes]:
        """Starts the program over these devices."""
        return subprocess.Popen([self.program], stdin=stdin, stdout=stdout, stderr=subprocess.PIPE)


# ---- runs that end well

def good_runs(runs: Runs) -> None:
    """Inputs that are read to their end."""
    for name, known in (("the stored run", STORED), ("a long run", LONG)):
        runs.expect(name, runs.run(known.given), Ended(0, known.wanted, b""))
    runs.expect("no input", runs.run(stdin=subprocess.DEVNULL), Ended(0, b"", b""))


def terminal(runs: Runs) -> None:
    """At a terminal standard error first says what the program waits for; nothing else changes."""
    some = Known(b"c u8 7\nt a1 22\n", b"ok 7\nword 0 2\nnumber 22 3 5\nend\n")
    for known in (Known(b"", b""), some):
        ours, end = os.openpty()
        started = runs.start(stdin=end)
        os.close(end)
        # What is typed comes after the hint, which waits for nothing, and ends with Ctrl-D.
        hint = started.stderr.readline() if started.stderr else b""
        os.write(ours, known.given + b"\x04")
        out, err = started.communicate(timeout=SECONDS)
        os.close(ours)
        got = Ended(started.returncode, out, hint + err)
        runs.expect("a terminal", got, Ended(0, known.wanted, WAITING))
    ours, end = os.openpty()
    got = runs.run(b"c u8 7\n", stdout=end)
    runs.expect("a terminal as output alone", got, Ended(0, b"", b""))
    os.close(end)
    os.close(ours)


def one_byte_a_read(runs: Runs) -> None:
    """A socket of this kind hands out one message a read."""
    ours, end = socket.socketpair(socket.AF_UNIX, socket.SOCK_SEQPACKET)
    started = runs.start(stdin=end.fileno())
    end.close()
    with ours, contextlib.suppress(BrokenPipeError):
        for byte in STORED.given:
            ours.send(bytes([byte]))
    out, err = started.communicate(timeout=SECONDS)
    got = Ended(started.returncode, out, err)
    runs.expect("one byte a read", got, Ended(0, STORED.wanted, b""))


def read_by_stops(started: subprocess.Popen[bytes], end: int, room: int, most: int) -> bytes:
    """The front of what a program writes into a pipe with that room: up to MOST bytes, each time
    that the pipe is full, while the program is stopped. A write that waits for room then ends short
    where the program goes on."""
    got = b""
    last = time.monotonic() + SECONDS
    while most - len(got) > room and started.poll() is None and time.monotonic() < last:
        if bytes_in(end) == room:
            started.send_signal(signal.SIGSTOP)
            os.waitpid(started.pid, os.WUNTRACED)
            got += os.read(end, room)
            started.send_signal(signal.SIGCONT)
    return got


def short_writes(runs: Runs) -> None:
    """Writes that take less than they were given."""
    given, wanted = STORED.given * 200, STORED.wanted * 200
    end, pipe = os.pipe()
    room = fcntl.fcntl(pipe, F_SETPIPE_SZ, PAGE)
    with tempfile.TemporaryFile() as file:
        file.write(given)
        file.seek(0)
        started = runs.start(stdin=file, stdout=pipe)
    os.close(pipe)
    got = read_by_stops(started, end, room, len(wanted))
    with open(end, "rb") as rest:
        got += rest.read()
    err = started.communicate(timeout=SECONDS)[1]
    ended = Ended(started.returncode, got, err)
    runs.expect("writes that are cut short", ended, Ended(0, wanted, b""))


# ---- refusals

def refused_reads(runs: Runs) -> None:
    """Inputs that can't be read, or only up to some byte."""
    refused = Ended(2, b"", READ)
    runs.expect("a closed input", runs.run(before=lambda: os.close(0)), refused)
    with open("/dev/null", "wb") as unreadable:
        got = runs.run(stdin=unreadable)
        runs.expect("an input that is open for writing alone", got, refused)
    folder = os.open("/", os.O_RDONLY)
    runs.expect("a folder as input", runs.run(stdin=folder), refused)
    os.close(folder)
    for size in range(len(STORED.given) + 1):
        # A pipe that has nothing left and isn't to be waited for refuses the read.
        end, feeder = os.pipe()
        os.write(feeder, STORED.given[:size])
        os.set_blocking(end, False)
        runs.expect(f"a read that is refused after {size} bytes", runs.run(stdin=end), refused)
        os.close(end)
        os.close(feeder)


def full_file(runs: Runs, known: Known, size: int) -> None:
    """A file that has room for few bytes: the write that reaches its end is cut short, and the
    next one is refused."""
    with tempfile.TemporaryFile() as file:
        got = runs.run(known.given, stdout=file, before=limit(resource.RLIMIT_FSIZE, size))
        file.seek(0)
        got = got._replace(out=file.read())
    want = Ended(2, known.wanted[:size], WRITE)
    if size == len(known.wanted):
        want = Ended(0, known.wanted, b"")
    runs.expect(f"a file of at most {size} bytes", got, want)


def refused_writes(runs: Runs) -> None:
    """Outputs that can't be written to, or only up to some byte."""
    refused = Ended(2, b"", WRITE)
    with open("/dev/full", "wb") as full:
        runs.expect("a full device", runs.run(STORED.given, stdout=full), refused)
    closed = runs.run(STORED.given, before=lambda: os.close(1))
    runs.expect("a closed output", closed, refused)
    end, broken = os.pipe()
    os.close(end)
    runs.expect("a pipe that nothing reads", runs.run(STORED.given, stdout=broken), refused)
    os.close(broken)
    for size in range(len(STORED.wanted) + 1):
        full_file(runs, STORED, size)
    for size in (1, 65536, 65537, len(LONG.wanted) - 1):
        full_file(runs, LONG, size)


def refused_memory(runs: Runs) -> None:
    """A limit on the process's memory refuses one growth of the input's buffer after another."""
    given = b"c u8 1" + b"\n" * (8 * MEBIBYTE)
    whole = Ended(0, b"ok 1\n" + b"bad line\n" * (len(given) - 7), b"")
    sizes = (1, 2, 3, 4, 6, 8, 12, 16, 64)
    refused = 0
    for size in sizes:
        got = runs.run(given, before=limit(resource.RLIMIT_DATA, size * MEBIBYTE))
        refused += got.status == 2
        want = Ended(2, b"", MEMORY) if got.status == 2 else whole
        runs.expect(f"{size} MiB of memory", got, want)
    if not 0 < refused < len(sizes):
        runs.fail(f"a limit on memory refused {refused} of {len(sizes)} runs")


def failing_allocations(runs: Runs, known: Known, least: int, library: str) -> None:
    """Each allocation of a run fails in turn; there are at least `least`. The run ends well where
    it has no allocation of that number, and so it does with the next number. The input is a file:
    how a pipe hands it out, and so how many allocations there are, would differ between runs."""
    refused, whole = Ended(2, b"", MEMORY), Ended(0, known.wanted, b"")
    ends_well = False
    for number in range(1, MOST_ALLOCATIONS):
        more = {"LD_PRELOAD": library, "FAILING_ALLOCATION": str(number)}
        with tempfile.TemporaryFile() as file:
            file.write(known.given)
            file.seek(0)
            got = runs.run(stdin=file, more=more)
        is_last = ends_well
        ends_well = is_last or (number > least and got.status == 0)
        runs.expect(f"where allocation {number} fails", got, whole if ends_well else refused)
        if is_last:
            return
    runs.fail(f"allocation {MOST_ALLOCATIONS} was reached")


def refused_allocations(runs: Runs) -> None:
    """Allocations fail by their number, of a run with one and of one with several. The toolchain's
    interpreter can do this too, but takes half a minute for each run."""
    with tempfile.TemporaryDirectory() as folder:
        library = os.path.join(folder, "failing_allocation.so")
        source = os.path.join(TOP, "tests", "c", "failing_allocation.c")
        subprocess.run(["cc", "-O", "-shared", "-fPIC", "-o", library, source], check=True)
        failing_allocations(runs, STORED, 1, library)
        failing_allocations(runs, GROWING, 3, library)


CHECKS = [good_runs, refused_reads, terminal, one_byte_a_read, refused_writes, short_writes,
          refused_memory]


def main(programs: List[str]) -> int:
    """Runs each program, and answers the exit status."""
    programs = programs or [path for path in BUILT if os.path.isfile(path)]
    if not programs:
        sys.exit("tools/devices.py: no program is built: make lexint builds it")
    checks = CHECKS + [refused_allocations]
    if not shutil.which("cc"):
        print("tools/devices.py: there is no cc, so no allocation is refused by its number")
        checks = CHECKS
    done = [Runs(runnable(program, "lexint")) for program in programs]
    for runs in done:
        for check in checks:
            check(runs)
    failures = [said for runs in done for said in runs.failures]
    for said in failures:
        print(f"tools/devices.py: {said}", file=sys.stderr)
    print(f"{sum(runs.count for runs in done)} runs, {len(failures)} failed")
    return 1 if failures else 0


if __name__ == "__main__":
    sys.exit(main(sys.argv[1:]))
