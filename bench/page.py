"""docs/SPEED.md, of which each script here writes a part, and what each may be asked for."""
from __future__ import annotations

import argparse
import datetime
import os
import re
import shutil
import subprocess
import sys
from dataclasses import dataclass
from typing import Callable

PAGE = os.path.join(os.path.dirname(os.path.dirname(os.path.abspath(__file__))), "docs", "SPEED.md")
PART = r"(<!-- measured: {} writes this -->\n)(?s:.*?)(<!-- end of what was measured -->)"


def need(*programs: str) -> None:
    """Ends the script with a message if a program that it needs isn't installed."""
    lacking = [name for name in programs if not shutil.which(name)]
    if lacking:
        sys.exit(f"bench: it needs {', '.join(lacking)}")


def ended(main: Callable[[], int]) -> int:
    """What a script answers, or a sentence where a file or a program isn't as it has to be."""
    try:
        return main()
    except (OSError, UnicodeDecodeError, subprocess.CalledProcessError) as error:
        sys.exit(f"bench: {error}")
    except KeyboardInterrupt:
        sys.exit("bench: broken off")


def instructions(words: list[str], path: str = os.devnull) -> int:
    """How many instructions a run over a file has, from the program's start to its end."""
    callgrind = ["valgrind", "--tool=callgrind", "--callgrind-out-file=/dev/null"]
    with open(path, "rb") as file:
        ran = subprocess.run([*callgrind, *words], stdin=file, capture_output=True, text=True)
    found = re.search(r"Collected : (\d+)", ran.stderr)
    if not found:
        sys.exit(f"bench: callgrind counted nothing: {ran.stderr.strip()[-300:]}")
    return int(found[1])


def positive(word: str) -> int:
    """A number of the command line, which has to be at least 1."""
    if int(word) < 1:
        raise ValueError
    return int(word)


def options(about: str, rounds: int) -> argparse.ArgumentParser:
    """The options that all scripts have: the number of rounds, and the seed of the texts."""
    parser = argparse.ArgumentParser(
        description=about, formatter_class=argparse.RawDescriptionHelpFormatter)
    parser.add_argument("--rounds", type=positive, default=rounds, help="how often a text is read")
    parser.add_argument("--seed", type=int, default=1, help="what the texts come from")
    return parser


@dataclass
class Asked:
    """What a script is asked to read, and how busy the machine was when it began."""

    unit: str
    size: int
    rounds: int
    seed: int
    load: float
    against: str = ""
    megabytes: int = 0

    def measured_on(self) -> str:
        """What a page says of this: the day, the machine and what was asked for."""
        day = datetime.date.today().isoformat()
        return (f"{day}: {os.cpu_count()} processors, load {self.load:.1f} at the start; "
                f"{self.size} {self.unit}, seed {self.seed}, {self.rounds} rounds.")


def checkout(word: str) -> str:
    """A checkout whose library is built."""
    library = os.path.join(word, "build", "libjadvolni.a")
    if not os.path.isfile(library):
        raise argparse.ArgumentTypeError(f"there is no {library}: make lib makes one there")
    return word


def asked(about: str, unit: str, size: int, rounds: int, compares: bool = False,
          has_files: bool = False) -> Asked:
    """What the command line asks of a script, by default this size and number of rounds. One that
    compares may be asked for another checkout, and one that has files for the size of one."""
    parser = options(about, rounds)
    parser.add_argument(f"--{unit}", type=positive, default=size, help=f"{unit} of a text")
    if compares:
        parser.add_argument("--against", type=checkout, help="another built checkout")
    if has_files:
        parser.add_argument("--megabytes", type=positive, default=0, help="read a file, by blocks")
    found = parser.parse_args()
    if compares and has_files and found.against and found.megabytes:
        parser.error("--against and --megabytes go each alone")
    return Asked(unit, getattr(found, unit), found.rounds, found.seed, os.getloadavg()[0],
                 (compares and found.against) or "", found.megabytes if has_files else 0)


def table(head: list[str], rows: list[list[str]]) -> list[str]:
    """The lines of a table."""
    head_line, *lines = [f"| {' | '.join(cells)} |" for cells in (head, *rows)]
    return [head_line, "|---" * len(head) + "|", *lines]


def put(path: str, text: str) -> None:
    """Writes a file. If that fails, the old one stays."""
    with open(f"{path}.new", "w", encoding="utf-8") as file:
        file.write(text)
    os.replace(f"{path}.new", path)


def write(script: str, lines: list[str]) -> None:
    """Writes the part of a script, and leaves the others as they are."""
    with open(PAGE, encoding="utf-8") as file:
        text = file.read()
    part = re.compile(PART.format(re.escape(script)))
    put(PAGE, part.sub(lambda found: found[1] + "\n".join(lines) + "\n" + found[2], text))
