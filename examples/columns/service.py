"""Reads the numbers of a service, each within its bounds, from a configuration or from JSON.

    python3 service.py FILE

A FILE whose name ends in `.json` is an object of JSON, where a number may stand within quotes. Any
other is a configuration with a section `service`. Each wrong number is reported by its name, and
the status is then 1.
"""

import configparser
import json
import sys

import command
import jadvolni
from jadvolni.formats import JSON

# Each number, with its least and its greatest.
NUMBERS = {"port": (1, 65535), "workers": (1, 64), "offset": (-720, 840)}


def numbers_of(texts):
    """The numbers of a mapping of texts, and what is wrong with it."""
    found, wrong = {}, []
    for name, (least, most) in NUMBERS.items():
        try:
            found[name] = jadvolni.parse(texts.get(name, ""), "i64", JSON, min=least, max=most)
        except (TypeError, ValueError) as error:
            wrong.append(f"{name}: {error}")
    return found, wrong


def by_int(texts):
    """The same by int, which also takes ' 80', '8_0' and the digits of other scripts."""
    found, wrong = {}, []
    for name, (least, most) in NUMBERS.items():
        try:
            number = int(texts.get(name, ""))
            if not least <= number <= most:
                raise ValueError(f"{number} is not from {least} to {most}")
            found[name] = number
        except (TypeError, ValueError) as error:
            wrong.append(f"{name}: {error}")
    return found, wrong


def texts_of(path: str):
    """The texts of a file's numbers, by their names, as they stand there."""
    parser = configparser.ConfigParser(interpolation=None)
    try:
        with open(path, encoding="utf-8-sig") as file:
            if path.endswith(".json"):
                return dict(json.load(file, parse_int=str, parse_float=str))
            parser.read_file(file)
    except (configparser.Error, RecursionError, TypeError) as error:
        raise ValueError(" ".join(str(error).split())) from error
    return parser["service"] if "service" in parser else {}


def summary(path: str) -> str:
    """What the command says. ValueError has what is wrong."""
    found, wrong = numbers_of(texts_of(path))
    if wrong:
        raise ValueError("; ".join(wrong))
    return ", ".join(f"{name} {number}" for name, number in found.items())


def main() -> None:
    """The command line."""
    command.ask(len(sys.argv) == 2, __doc__)
    command.tell(sys.argv[1], summary)


if __name__ == "__main__":
    main()
