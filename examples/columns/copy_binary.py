"""Writes a checked table of lines `DAY;NAME;CENTS` as PostgreSQL's COPY reads it in binary.

    psql -c 'CREATE TABLE ledger (day integer, cents bigint)'
    python3 copy_binary.py FILE > rows &&
    psql -c 'COPY ledger (day, cents) FROM STDIN BINARY' < rows

DAY is 0 to 65535, NAME isn't copied, and CENTS may be empty for NULL. The columns have to be
integer and bigint: COPY converts nothing, and would store other numbers in a numeric or a date.
The file may be of any size. Its first wrong cell is reported, the status is 1, and the rows end in
one that COPY refuses: it loads none then. Don't pipe them into psql all the same, nor by psql's
\\copy .. from program: COPY asks for no end, and would load what a killed program wrote. COPY ..
FROM PROGRAM, on the server, asks for the status.
"""

import struct
import sys

import command
import jadvolni

CELLS = {"day": "u16", "name": None, "cents": jadvolni.Column("i64", may_miss=True)}
# A row: two fields, of 4 and 8 bytes, each behind its size; one that is NULL has the size -1 alone.
ROW = struct.Struct("!hiiiq")
ROW_WITH_NULL = struct.Struct("!hiii")
ROW_THAT_IS_REFUSED = b"\0\0"  # of no field


def bytes_of(day: int, cents: int, has_cents: bool) -> bytes:
    """A row."""
    return ROW.pack(2, 4, day, 8, cents) if has_cents else ROW_WITH_NULL.pack(2, 4, day, -1)


def copied(file):
    """What is written for a file, block by block."""
    yield b"PGCOPY\n\xff\r\n\0" + bytes(8)
    try:
        for rows in jadvolni.iter_table(file, CELLS, ";"):
            days, cents = rows["day"].tolist(), rows["cents"]
            yield b"".join(map(bytes_of, days, cents.numbers.tolist(), cents.present))
    except (OSError, ValueError):
        yield ROW_THAT_IS_REFUSED
        raise
    yield b"\xff\xff"


def copy(path: str) -> None:
    """Writes what a file has."""
    with open(path, "rb") as file:
        for block in copied(file):
            command.write(block)


def main() -> None:
    """The command line."""
    command.ask(len(sys.argv) == 2, __doc__)
    command.tell(sys.argv[1], copy)


if __name__ == "__main__":
    main()
