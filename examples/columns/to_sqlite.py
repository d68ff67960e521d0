"""Loads a table of lines `DAY;NAME;CENTS` into the table ledger of an SQLite database.

    python3 to_sqlite.py FILE DATABASE

DAY is 0 to 65535, NAME is UTF-8 with quotes as part of it, and CENTS may be empty for NULL. The
file may be of any size. Its first wrong cell is reported, the status is 1, and nothing is loaded.
Loaded twice, the rows are there twice: so they are where the status is 1 because the count of rows
couldn't be printed, and the program is run again.
"""

import contextlib
import sqlite3
import sys
from typing import BinaryIO

import command
import jadvolni

CELLS = {"day": "u16", "name": jadvolni.Text(), "cents": jadvolni.Column("i64", may_miss=True)}
TABLE = "CREATE TABLE IF NOT EXISTS ledger (day INTEGER, name TEXT, cents INTEGER)"
# By their names: a table that is there may have others, or these in another order.
ROW = "INSERT INTO ledger (day, name, cents) VALUES (?, ?, ?)"


def load(file: BinaryIO, database: sqlite3.Connection) -> int:
    """Loads all rows of a file, or none. Returns how many there are."""
    count = 0
    with database:  # (which ends the transaction)
        database.execute("BEGIN")
        database.execute(TABLE)
        for table in jadvolni.iter_table(file, CELLS, ";"):
            rows = zip(*(table[name].tolist() for name in CELLS))
            count += database.executemany(ROW, rows).rowcount
    return count


def summary(path: str, name: str) -> str:
    """What the command says."""
    with open(path, "rb") as file:  # (first, since SQLite makes a database that isn't there)
        try:
            with contextlib.closing(sqlite3.connect(name)) as database:
                return f"{load(file, database)} rows"
        except sqlite3.Error as error:
            sys.exit(f"{name}: {error}")


def main() -> None:
    """The command line."""
    # (an empty name would be a database that SQLite drops at the end)
    command.ask(len(sys.argv) == 3 and sys.argv[2] != "", __doc__)
    command.tell(sys.argv[1], lambda path: summary(path, sys.argv[2]))


if __name__ == "__main__":
    main()
