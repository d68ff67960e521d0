"""What docs/PERF.md has from bench/calls.tsv: the calls slower than at the baseline, and why."""
from __future__ import annotations

import math
import os
import re
import sys
from typing import NamedTuple, Optional

import source

KEPT = os.path.join("bench", "calls.tsv")
CAUSES = os.path.join("bench", "causes.txt")
PAGE = os.path.join("docs", "PERF.md")
PART = re.compile(r"(<!-- measured: make docs writes this from bench/calls\.tsv -->\n)(?s:.*?)"
                  r"(<!-- end of what was measured -->)")
# From which ratio to the baseline's count on a call is slower, and up to which it is faster.
SLOWER, FASTER = 1.03, 0.97
LINE = re.compile(r"([^\t]+)\t(\d*)\t(\d+)\t[\d.]*")
TABLE = ["| Call | Input | Baseline | Now | Ratio |", "|---|---|---|---|---|"]


class Row(NamedTuple):
    """A call, its instructions at the baseline, and those that are kept."""

    name: str
    baseline: int
    now: int

    def ratio(self) -> float:
        return self.now / self.baseline

    def is_slower(self) -> bool:
        return self.now >= SLOWER * self.baseline and self.now > self.baseline + 1


class Cause(NamedTuple):
    """Why calls are slower, in a few words and in a sentence, and the pattern of their names."""

    name: str
    what: str
    names: re.Pattern[str]


UNKNOWN = Cause("Not explained yet", "`bench/causes.txt` has no cause.", re.compile("(?s:.*)"))


def counts(top: str) -> list[Row]:
    """The calls with a count at the baseline. It ends the program at a bad line."""
    lines = enumerate(source.read(os.path.join(top, KEPT)).splitlines(), 1)
    found = []
    for number, line in [it for it in lines if not it[1].startswith("#")][1:]:
        row = LINE.fullmatch(line)
        if not row:
            sys.exit(f"{KEPT}:{number}: no call with its counts: {line}")
        found += [Row(row[1], int(row[2]), int(row[3]))] if int(row[2] or 0) else []
    return found


def pattern_of(lines: list[str]) -> re.Pattern[str]:
    """The names that one of these lines fits, where * stands for anything."""
    return re.compile("|".join(re.escape(line).replace(r"\*", ".*") for line in lines) or "(?!)")


def causes(top: str) -> list[Cause]:
    """The causes of bench/causes.txt, in its order. It ends the program at a bad line."""
    found: dict[str, list[str]] = {}
    for number, line in enumerate(source.read(os.path.join(top, CAUSES)).splitlines(), 1):
        if line.startswith("== ") and ": " in line:
            found[line[3:]] = []
        elif line and not line.startswith("#"):
            if not found or " | " not in line:
                sys.exit(f"{CAUSES}:{number}: neither a cause nor a case of one: {line}")
            found[list(found)[-1]].append(line)
    heads = {head: head.partition(": ") for head in found}
    return [Cause(heads[it][0], heads[it][2], pattern_of(lines)) for it, lines in found.items()]


def cause_of(row: Row, known: list[Cause]) -> Cause:
    """The first cause that fits a call."""
    fits: Optional[Cause] = next((it for it in known if it.names.fullmatch(row.name)), None)
    return fits or UNKNOWN


def line_of(row: Row) -> str:
    """A line of the table: a bar within a name would part its cells."""
    call, *words = row.name.split(" | ")
    counts_of = f"{row.baseline:,} | {row.now:,} | {row.ratio():.2f}"
    return f"| `{call}` | `{' '.join(words)}` | {counts_of} |"


def group(cause: Cause, rows: list[Row]) -> list[str]:
    """A cause, and the calls that it makes slower, the slowest first."""
    ordered = sorted(rows, key=Row.ratio, reverse=True)
    calls = "one call" if len(rows) == 1 else f"{len(rows)} calls"
    return ["", f"**{cause.name}** ({calls}): {cause.what}", "", *TABLE, *map(line_of, ordered)]


def part(rows: list[Row], known: list[Cause]) -> str:
    """What is said of all calls, and those that are slower than at the baseline, by their cause."""
    if not rows:
        return "No call was counted at the baseline.\n"
    mean = math.exp(sum(math.log(max(it.ratio(), 0.01)) for it in rows) / len(rows))
    slower = [it for it in rows if it.is_slower()]
    faster = sum(it.ratio() <= FASTER for it in rows)
    lines = [f"Of {len(rows):,} calls: at least 3% fewer instructions than at the baseline, "
             f"{faster}; at least 3% more, {len(slower)}. The ratios' geometric mean: {mean:.2f}."]
    for cause in [*known, UNKNOWN]:
        its = [it for it in slower if cause_of(it, known) is cause]
        lines += group(cause, its) if its else []
    return "\n".join(lines) + "\n"


def filled(top: str, path: str, text: str) -> str:
    """A page, with that part as the counts have it."""
    if path != PAGE:
        return text
    return PART.sub(lambda found: found[1] + part(counts(top), causes(top)) + found[2], text)
