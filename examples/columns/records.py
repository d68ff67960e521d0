"""Adds up the cents of a file of records, or reports its first wrong cell.

    python3 records.py FILE

A record has 13 bytes, and nothing stands between two: 3 of a day, 4 of what was paid for, and 6 of
the cents, with blanks around the numbers. The file may be of any size.
"""

import sys

import command
import jadvolni

CELLS = {"day": "u16", "what": None, "cents": "i64"}
WIDTHS = (3, 4, 6)


def total(path: str) -> int:
    """The sum of the cents."""
    with open(path, "rb") as file:
        tables = jadvolni.iter_table(
            file, CELLS, widths=WIDTHS, is_records=True, allows_blanks=True
        )
        return sum(sum(rows["cents"].tolist()) for rows in tables)


def main() -> None:
    """The command line."""
    command.ask(len(sys.argv) == 2, __doc__)
    command.tell(sys.argv[1], total)


if __name__ == "__main__":
    main()
