"""Adds up a ledger of any size, a line `NAME AMOUNT` for each entry, or reports the first bad cell.

    python3 ledger.py FILE

An amount is a number of cents, and a space parts it from the name: `rent -80000`. Lines end with a
line feed.
"""

import sys

import command
import jadvolni

CELLS = {"name": None, "cents": "i64"}


def total(path: str) -> int:
    """The sum of the amounts, which are read in blocks."""
    with open(path, "rb") as file:
        return sum(sum(rows["cents"].tolist()) for rows in jadvolni.iter_table(file, CELLS, " "))


def main() -> None:
    """The command line."""
    command.ask(len(sys.argv) == 2, __doc__)
    command.tell(sys.argv[1], total)


if __name__ == "__main__":
    main()
