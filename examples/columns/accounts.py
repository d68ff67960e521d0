"""Adds up the amounts of a bank's export, and counts its bad rows.

    python3 accounts.py FILE

The export has a header with the names Day and Amount, `;` between cells, and either line end. A
day, as 26.11.2026, is kept as it is, and an amount is one as -1.234,50. Bad rows are skipped: their
number and the line of the first go to standard error, and the exit status is 1.
"""

import csv
import sys
from decimal import Decimal

import command
import jadvolni

CELLS = {"Day": jadvolni.Text(),
         "Amount": jadvolni.Fixed("i64", places=2, point=",", group=".")}


def entries(path: str):
    """The days, their cents, and the bad rows of an export."""
    bad = []
    table = jadvolni.read_table(path, CELLS, ";", has_quotes=True, allows_returns=True, header=True,
                                skips_empty_rows=True, on_error="skip", errors=bad)
    return table["Day"].tolist(), table["Amount"].tolist(), bad


def by_csv(path: str):
    """The same by csv and decimal, which also take amounts that are none, as 1.2,5."""
    days, cents, bad = [], [], []
    with open(path, newline="", encoding="utf-8-sig") as file:
        rows = csv.DictReader(file, delimiter=";")
        for row in rows:
            try:
                if None in row or None in row.values():
                    raise ValueError("too few cells or too many")
                amount = Decimal(row["Amount"].replace(".", "").replace(",", "."))
                cents.append(int(amount.scaleb(2)))
                days.append(row["Day"])
            except (ArithmeticError, ValueError) as error:
                bad.append(f"line {rows.line_num}: {error}")
    return days, cents, bad


def summary(path: str) -> tuple[str, int]:
    """What the command says, and how many bad rows there are."""
    days, cents, bad = entries(path)
    if bad:
        command.report(f"bad rows: {len(bad)}, the first: {bad[0]}")
    span = f" from {days[0]} to {days[-1]}" if days else ""
    return f"{len(days)} entries{span}, {Decimal(sum(cents)).scaleb(-2)} in all", len(bad)


def main() -> None:
    """The command line."""
    command.ask(len(sys.argv) == 2, __doc__)
    command.tell(sys.argv[1], summary)


if __name__ == "__main__":
    main()
