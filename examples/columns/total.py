"""Adds up a file of any size with a number on each line, block by block.

    python3 total.py FILE

The first wrong line is reported with its line and its byte. Where tqdm is installed, a bar on the
terminal says how far a file is read that takes longer than a second.
"""

import contextlib
import os
import sys

import command
import jadvolni


@contextlib.contextmanager
def bar_of(file):
    """What a bar is called with for each block of a file; None where tqdm isn't installed."""
    try:
        from tqdm import tqdm
    except ImportError:
        yield None
        return
    size = os.fstat(file.fileno()).st_size or None
    with tqdm(total=size, unit="B", unit_scale=True, delay=1, leave=False, disable=None) as bar:
        yield bar.update


def total(path: str) -> str:
    """How many numbers a file has, and their sum. ValueError has the first wrong line."""
    count, found = 0, 0
    try:
        with open(path, "rb") as file, bar_of(file) as progress:
            for numbers in jadvolni.iter_column(file, "i64", progress=progress):
                count, found = count + len(numbers), found + sum(numbers)
    except jadvolni.ParseError as error:
        raise ValueError(f"line {error.field + 1}, byte {error.place}: {error.kind}") from error
    return f"{count} numbers, sum {found}"


def main() -> None:
    """The command line."""
    command.ask(len(sys.argv) == 2, __doc__)
    command.tell(sys.argv[1], total)


if __name__ == "__main__":
    main()
