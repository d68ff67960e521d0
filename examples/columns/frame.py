"""Reads a table of lines `DAY;NAME;CENTS` as a DataFrame of pandas, and copies no number.

    python3 frame.py FILE

CENTS may be empty, and is then missing: NA, and no 0. The first wrong cell is reported.
"""

import sys

import command
import jadvolni

CELLS = {"day": "u16", "name": None, "cents": jadvolni.Column("i64", may_miss=True)}


def summary(path: str) -> str:
    """What the command says."""
    frame = jadvolni.read_table(path, CELLS, ";").to_pandas()
    cents = frame["cents"]
    return f"{len(frame)} rows, {cents.isna().sum()} without cents, {cents.min()} to {cents.max()}"


def main() -> None:
    """The command line."""
    command.ask(len(sys.argv) == 2, __doc__)
    command.tell(sys.argv[1], summary)


if __name__ == "__main__":
    main()
