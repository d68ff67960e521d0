"""Adds up a file with a number on each line, in as many threads as there are cores.

    python3 big_file.py FILE [THREADS]

The file is read whole. Its first wrong line is reported with its byte, whichever thread was first.
There are 1 to 255 threads.
"""

import os
import sys

import command
import jadvolni


def read_lines(text, threads: int = 1):
    """The numbers of a text's lines, or the fault of the first wrong one. A worker calls this."""
    try:
        return jadvolni.parse_table(text, {"number": "i64"}, threads=threads)["number"]
    except jadvolni.ParseError as error:
        return error


def read_file(path: str, threads: int):
    """The numbers of a file's lines. ValueError has the first wrong one."""
    # Not mapped: a pipe can't be, and a file that is cut short meanwhile would end the program.
    with open(path, "rb") as file:
        answer = read_lines(file.read(), threads)
    if isinstance(answer, jadvolni.ParseError):
        raise ValueError(f"line {answer.row + 1}, byte {answer.place}: {answer.kind}")
    return answer.tolist()


def summary(path: str, threads: int) -> str:
    """What the command says."""
    numbers = read_file(path, threads)
    return f"{len(numbers)} numbers, sum {sum(numbers)}"


def threads_of(words) -> int:
    """How many threads the command line asks for, and 0 where it is wrong."""
    if len(words) not in (2, 3):
        return 0
    try:
        return jadvolni.parse(words[2], "u8") if len(words) > 2 else len(os.sched_getaffinity(0))
    except jadvolni.ParseError:
        return 0


def main() -> None:
    """The command line."""
    threads = threads_of(sys.argv)
    command.ask(threads > 0, __doc__)
    command.tell(sys.argv[1], lambda path: summary(path, threads))


if __name__ == "__main__":
    main()
