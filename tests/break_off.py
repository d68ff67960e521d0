#!/usr/bin/env python3
"""Breaks off tools/build.sh, as Ctrl-C does, and checks that no toolchain goes on below it.

A toolchain that says its process and then sleeps stands in for the real one, in a copy of the tree.
Of the scripts that test the programs it checks that they take their folders away: there such a
program stands in.
"""
from __future__ import annotations

import os
import shutil
import signal
import subprocess
import sys
import tempfile
import time
from typing import Callable

TOP = os.path.dirname(os.path.dirname(os.path.abspath(__file__)))
TOOLCHAIN = "#!/bin/sh\necho $$ > began.new\nmv began.new began\nexec sleep 60\n"
CRATE = "lexical_util"
SECONDS = 20
# The scripts that test a program, in a folder of their own.
TESTS = ("jad.sh", "shell_snippet.sh")


def is_soon(is_so: Callable[[], bool]) -> bool:
    """Whether something is so within some seconds."""
    last = time.monotonic() + SECONDS
    while not is_so() and time.monotonic() < last:
        time.sleep(0.05)
    return is_so()


def is_running(process: int) -> bool:
    """Whether a process runs: one that has ended may wait for its parent to hear of it."""
    try:
        with open(f"/proc/{process}/stat", encoding="ascii") as file:
            return file.read().rpartition(")")[2].split()[0] != "Z"
    except FileNotFoundError:
        return False


def begun(words: list[str], **more: str) -> subprocess.Popen[bytes]:
    """A script that runs in a group of its own."""
    return subprocess.Popen(
        words, env={**os.environ, **more}, stdout=subprocess.DEVNULL, stderr=subprocess.DEVNULL,
        start_new_session=True, preexec_fn=lambda: signal.signal(signal.SIGINT, signal.SIG_DFL))


def broken_off(tree: str) -> str:
    """What is wrong with a build that is broken off; nothing where it ends with all below it."""
    folder, toolchain = os.path.join(tree, "crates", CRATE), os.path.join(tree, "rt")
    began = os.path.join(folder, "began")
    os.makedirs(folder)
    os.mkdir(os.path.join(tree, "tools"))
    for name in ("tools/build.sh", "crates.txt"):
        shutil.copy(os.path.join(TOP, name), os.path.join(tree, name))
    with open(toolchain, "w", encoding="ascii") as file:
        file.write(TOOLCHAIN)
    os.chmod(toolchain, 0o755)
    build = begun([os.path.join(tree, "tools", "build.sh"), CRATE], RT=toolchain)
    if not is_soon(lambda: os.path.exists(began)):
        return "the toolchain isn't started"
    os.killpg(build.pid, signal.SIGINT)
    status = build.wait(SECONDS)
    with open(began, encoding="ascii") as file:
        process = int(file.read())
    if is_soon(lambda: not is_running(process)):
        return "" if status == 130 else f"it ends with status {status}, and not 130"
    os.kill(process, signal.SIGKILL)
    return "the toolchain goes on"


def left_by(script: str, folder: str) -> str:
    """What is wrong with a test that is broken off; nothing where its own folder goes with it."""
    program, began = os.path.join(folder, "program"), os.path.join(folder, "began")
    room = os.path.join(folder, "room")
    os.mkdir(room)
    with open(program, "w", encoding="ascii") as file:
        file.write(f"#!/bin/sh\n: > {began}\nexec sleep 60\n")
    os.chmod(program, 0o755)
    test = begun([os.path.join(TOP, "tests", script), program], TMPDIR=room)
    if not is_soon(lambda: os.path.exists(began)):
        return f"{script} doesn't begin"
    os.killpg(test.pid, signal.SIGINT)
    test.wait(SECONDS)
    return f"{script} leaves its folder" if os.listdir(room) else ""


def main() -> int:
    """Says what is wrong, and answers the exit status."""
    if sys.argv[1:]:
        print(__doc__, file=sys.stderr)
        return 2
    with tempfile.TemporaryDirectory() as tree:
        wrong = [broken_off(tree)]
    for script in TESTS:
        with tempfile.TemporaryDirectory() as folder:
            wrong.append(left_by(script, folder))
    said = ", ".join(filter(None, wrong))
    print(f"a build and {len(TESTS)} tests that are broken off: {said or 'all ends with them'}")
    return 1 if said else 0


if __name__ == "__main__":
    sys.exit(main())
