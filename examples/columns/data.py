"""Adds up columns of comma-separated values by their names, and skips and counts bad rows.

    python3 data.py FILE NAME..

The first line has the names, and lines end either way. Cells may stand within quotes; those of
other columns may be anything, if their quotes are in place. After a bad row the exit status is 1.
"""

import sys

import command
import jadvolni


def columns(path: str, names):
    """The columns of these names, and how many bad rows were skipped."""
    table = jadvolni.read_table(path, dict.fromkeys(names, "i64"), header=True, has_quotes=True,
                                allows_returns=True, on_error="skip")
    return table, table.bad_rows


def by_pandas(path: str, names):
    """The same by pandas, which takes 1e3 and 12.0 too, and doesn't count rows with more cells.

    With `usecols` it would take the latter."""
    import pandas

    frame = pandas.read_csv(path, dtype=str, on_bad_lines="skip")[names]
    right = frame.apply(pandas.to_numeric, errors="coerce").dropna()
    return right.astype("int64"), len(frame) - len(right)


def summary(path: str, names) -> tuple[str, int]:
    """What the command says, and how many bad rows there are."""
    table, bad = columns(path, names)
    sums = [f"{name} {sum(table[name].tolist())}" for name in names]
    return ", ".join([*sums, f"bad rows: {bad}"]), bad


def main() -> None:
    """The command line."""
    command.ask(len(sys.argv) > 2, __doc__)
    command.tell(sys.argv[1], lambda path: summary(path, sys.argv[2:]))


if __name__ == "__main__":
    main()
