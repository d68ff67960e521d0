"""What the programs of this folder do alike: they ask for their words, and print an answer, or what
is wrong. It is a module, and no program.
"""

import os
import sys

try:
    import jadvolni
except ModuleNotFoundError:
    sys.exit("this needs jadvolni, which isn't installed: bindings/python/README.md says how")


def ask(holds: bool, page: str) -> None:
    """Asks that the words of the command line are right. Else the program's page is printed, and
    the status is 2: or 0 where one of them asks for the page."""
    if {"-h", "--help"}.intersection(sys.argv[1:]):
        write(f"{page.strip()}\n".encode())
        sys.exit()
    if not holds:
        report(page.strip())
        sys.exit(2)


def report(message: str) -> None:
    """Prints what is wrong to standard error. Where that is closed or full, nobody can be told: the
    status is the same, and nothing goes to standard output instead."""
    if sys.stderr is None:
        return
    try:
        print(message, file=sys.stderr)
    except OSError:
        silence(sys.stderr)


def silence(stream) -> None:
    """Has a stream write to nowhere. At its end Python writes what is buffered: where that can't
    fail once more."""
    os.dup2(os.open(os.devnull, os.O_WRONLY), stream.fileno())


def write(block: bytes) -> None:
    """Writes a block to standard output. Where that is refused, it is said, and the status is 1."""
    if sys.stdout is None:
        sys.exit("standard output is closed")
    try:
        sys.stdout.buffer.write(block)
        sys.stdout.flush()
    except OSError as error:
        silence(sys.stdout)
        sys.exit(f"standard output: {error.strerror}")


def tell(path: str, answer) -> None:
    """Prints what a function answers of a file, unless it is None; or what is wrong with the file,
    or which module isn't there, and the status is 1. A pair is an answer and how many bad rows were
    skipped for it: if any were, the status is 1 too."""
    try:
        said = answer(path)
    except jadvolni.ParseError as error:  # (which names the file)
        sys.exit(str(error))
    except OSError as error:
        sys.exit(f"{path}: {error.strerror}")
    except ValueError as error:
        sys.exit(f"{path}: {error}")
    except MemoryError:
        sys.exit(f"{path}: there is not enough memory")
    except KeyboardInterrupt:
        sys.exit(130)  # (as a shell has it)
    except ModuleNotFoundError as error:
        sys.exit(f"this needs {error.name}, which isn't installed")
    said, bad_rows = said if isinstance(said, tuple) else (said, 0)
    if said is not None:
        encoding = getattr(sys.stdout, "encoding", "utf-8")  # (where it is closed, there is none)
        write(f"{said}\n".encode(encoding, "backslashreplace"))
    if bad_rows:
        sys.exit(1)
