"""What a measurement says: a table, a file of numbers, and a picture."""
from __future__ import annotations

import argparse
import os
from dataclasses import dataclass
from xml.sax.saxutils import escape

import page

HERE = os.path.dirname(os.path.abspath(__file__))
AT_MANY = "ours, 20 sites"
OURS = ("ours", AT_MANY, "ours, constant", "ours, in place", "C call")
PEERS = (*OURS, "from_chars", "strtoull", "lexical-core")
# The rows that most users have come first.
MOST = ("u64, realistic", "i64, realistic", "JSON at run time, realistic",
        "radix 16 at run time, 8 digits", "fault: a letter at the end")
FIRST = {"ours": "inlined", AT_MANY: "at 20 call sites", "C call": "from C",
         "from_chars": "`std::from_chars`"}
COLOURS = {"ours": "#1f6f5c", AT_MANY: "#2f8f7a", "ours, constant": "#7fb8a8",
           "ours, in place": "#a5cfc4", "C call": "#4f9a86", "from_chars": "#c77d2e",
           "strtoull": "#b8a27a", "lexical-core": "#6b6fae"}
# of the picture: where its bars begin, how long and thick they are, and where it cuts them
LEFT, TOP, UNIT, BAR, GAP, GREATEST = 250, 60, 260, 7, 9, 2.5

# Of whom the table has instructions.
COUNTED = ("std", "ours", AT_MANY, "C call", "from_chars")

Numbers = dict[str, dict[str, float]]


@dataclass
class Seen:
    """What was measured, on what, and when."""

    machine: str
    date: str
    asked: argparse.Namespace
    small: Numbers
    large: Numbers
    counts: Numbers
    left_out: list[str]


def ratio(numbers: Numbers, name: str, peer: str) -> float | None:
    """The time of a peer, relative to std."""
    row = numbers.get(name, {})
    return row[peer] / row["std"] if peer in row else None


def shown(number: float | None, digits: int = 2) -> str:
    """A number with that many digits after the point, or nothing."""
    return "" if number is None else f"{number:.{digits}f}"


def peers_of(seen: Seen) -> list[str]:
    """The peers that were measured."""
    return [peer for peer in PEERS if any(peer in row for row in seen.small.values())]


def table(seen: Seen) -> str:
    """The table: times as ratios to std, for both sizes of a set, and instructions."""
    peers = peers_of(seen)
    head = ["texts", "std, ns", *peers, "ours, 60,000 texts", "from_chars, 60,000 texts"]
    head += [f"instructions: {' / '.join(COUNTED)}"] if seen.counts else []
    rows = []
    for name, row in seen.small.items():
        cells = [name, shown(row["std"], 1)]
        cells += [shown(ratio(seen.small, name, peer)) for peer in peers]
        cells += [shown(ratio(seen.large, name, peer)) for peer in ("ours", "from_chars")]
        if seen.counts:
            counts = [seen.counts[name].get(peer) for peer in COUNTED]
            cells.append(" / ".join(shown(count, 0) or "–" for count in counts))
        rows.append(cells)
    return "\n".join(page.table(head, rows))


def numbers(seen: Seen) -> str:
    """The numbers, a line for each set and peer."""
    lines = [f"# Measured by make bench on {seen.date}: {seen.machine}; seed {seen.asked.seed}, "
             f"{seen.asked.rounds} rounds.",
             "texts\tpeer\tns of 4096\tto std\tns of 60000\tto std\tinstructions"]
    for name, row in seen.small.items():
        for peer in row:
            cells = [name, peer, shown(row[peer], 3), shown(ratio(seen.small, name, peer), 3),
                     shown(seen.large[name].get(peer), 3), shown(ratio(seen.large, name, peer), 3),
                     shown(seen.counts.get(name, {}).get(peer), 1)]
            lines.append("\t".join(cells))
    return "\n".join(lines) + "\n"


def label(x: float, y: float, text: str, more: str = "") -> str:
    """A text of the picture."""
    return f'<text x="{x:.0f}" y="{y:.0f}"{more}>{escape(text)}</text>'


def bars(name: str, ratios: dict[str, float], place: int) -> list[str]:
    """The bars of a set, from a place on: as long as what each peer takes."""
    lines = [label(LEFT - 8, place + BAR * len(ratios) / 2 + 4, name, ' text-anchor="end"')]
    for peer, taken in ratios.items():
        width = min(taken, GREATEST) * UNIT
        lines.append(f'<rect x="{LEFT}" y="{place}" width="{width:.1f}" height="{BAR - 1}" '
                     f'fill="{COLOURS[peer]}"><title>{escape(name)}, {peer}: {taken:.2f}</title>'
                     "</rect>")
        if taken > GREATEST:
            more = ' class="small"'
            lines.append(label(LEFT + width + 4, place + BAR - 1, f"{taken:.1f}", more))
        place += BAR
    return lines


def legend(peers: list[str]) -> list[str]:
    """The colours of the peers."""
    lines, at = [], LEFT
    for peer in peers:
        lines.append(f'<rect x="{at}" y="30" width="10" height="10" fill="{COLOURS[peer]}"/>'
                     + label(at + 15, 39, peer))
        at += 30 + 7 * len(peer)
    return lines


def axis(bottom: int) -> list[str]:
    """The lines at 0, 0.5 and so on, that at 1 a dark one."""
    lines = []
    for step in range(0, 6):
        x, colour = LEFT + UNIT * step / 2, "#333" if step == 2 else "#ddd"
        lines.append(f'<line x1="{x:.0f}" y1="{TOP - 8}" x2="{x:.0f}" y2="{bottom}" '
                     f'stroke="{colour}"/>'
                     + label(x, bottom + 12, f"{step / 2:g}",
                             ' text-anchor="middle" class="small"'))
    return lines


def picture(seen: Seen) -> str:
    """A bar for each peer of each set, with std as the line at 1."""
    peers = peers_of(seen)
    place, body = TOP, []
    for name, row in seen.small.items():
        ratios = {peer: ratio(seen.small, name, peer) or 0 for peer in peers if peer in row}
        body += bars(name, ratios, place)
        place += BAR * len(ratios) + GAP
    width, height = LEFT + GREATEST * UNIT + 60, place + 20
    title = "Time to read a text, relative to Rust's std (shorter is faster)"
    return "\n".join([
        "<!-- What make bench saw, as a picture. -->",
        f'<svg xmlns="http://www.w3.org/2000/svg" width="{width:.0f}" height="{height}" '
        f'viewBox="0 0 {width:.0f} {height}" font-family="sans-serif" font-size="11" fill="#222">',
        "<style>.small { font-size: 9px; }</style>",
        '<rect width="100%" height="100%" fill="#fff"/>',
        label(LEFT, 18, title, ' font-size="13"'),
        *legend(peers), *axis(place), *body, "</svg>", ""])


def first_rows(seen: Seen) -> list[str]:
    """The table of what most users have."""
    return page.table(["relative to `str::parse`", *FIRST.values()], [
        [name, *(shown(ratio(seen.small, name, peer)) for peer in FIRST)] for name in MOST])


def part(seen: Seen) -> list[str]:
    """What docs/SPEED.md says of what was measured."""
    said = [f"Measured on {seen.date} by `make bench`: {seen.machine}. Seed {seen.asked.seed}, "
            f"{seen.asked.rounds} rounds.", ""]
    said += [f"Not measured: {what}." for what in seen.left_out] + ([""] if seen.left_out else [])
    picture = "![Time of each parser, relative to std](../bench/results.svg)"
    return [*first_rows(seen), "", *said, picture, "", table(seen), "", slower(seen), "",
            cost_of_call(seen), ""]


def slower(seen: Seen) -> str:
    """The rows in which another is faster than we are."""
    found = []
    for name, row in seen.small.items():
        faster = [peer for peer in row if peer not in OURS and row[peer] < row["ours"]]
        if faster:
            found.append(f"{name} ({', '.join(faster)})")
    if not found:
        return "No other parser is faster in any row."
    return "Another parser is faster in these rows: " + "; ".join(found) + "."


def cost_of_call(seen: Seen) -> str:
    """What a call from C adds to the inlined one, and where from_chars is faster than it."""
    rows = {name: row for name, row in seen.small.items() if "C call" in row}
    costs = sorted((row["C call"] - row["ours"], name) for name, row in rows.items())
    (least, at_least), (middle, _), (most, at_most) = costs[0], costs[len(costs) // 2], costs[-1]
    faster = [name for name, row in rows.items()
              if row.get("from_chars", row["C call"]) < row["C call"]]
    where = "in these rows: " + "; ".join(faster) if faster else "in no row"
    return (f"Compared with the inlined call, the call from C takes {middle:+.1f} ns in the median "
            f"row, {least:+.1f} ns at least ({at_least}) and {most:+.1f} ns at most ({at_most}). "
            f"`from_chars` is faster than the call from C {where}.")


def write_all(seen: Seen) -> None:
    """Writes the numbers, the picture and the page."""
    for name, text in (("results.tsv", numbers(seen)), ("results.svg", picture(seen))):
        page.put(os.path.join(HERE, name), text)
    page.write("make bench", part(seen))
