"""Fixed-point numbers, read by the library for C and by a slow reader that uses Python's decimal.

    python3 tests/fixed/fuzz.py LIBRARY [COUNT [SEED]]

compares all short texts over a few bytes, and then COUNT random ones, and ends with how many
differ. LIBRARY is the shared one. slow_fixed.py has the slow reader.
"""
from __future__ import annotations

import argparse
import ctypes
import itertools
import os
import random
import sys
from typing import Iterator

TOP = os.path.dirname(os.path.dirname(os.path.dirname(os.path.abspath(__file__))))
sys.path.insert(0, os.path.join(TOP, "tools"))

from slow_fixed import FIXED, Fixed, number_text, read, spoilt  # noqa: E402
from c_calls import BEFORE, CFormat, CResult, NUMBERS, STATUSES, c_format  # noqa: E402
from reference import TYPES, Value  # noqa: E402
from row_data import loaded, positive  # noqa: E402

ALPHABET = b"0159.,-+x"
SHORT = 5


# ---- the library

class CFixed(ctypes.Structure):
    """jadvolni_fixed."""

    _fields_ = [("integer", CFormat), ("point", ctypes.c_uint8), ("places", ctypes.c_uint8),
                ("takes_fewer", ctypes.c_uint8), ("reserved", ctypes.c_uint8 * 13)]


SLOTS = {b"u8": ctypes.c_uint8, b"u16": ctypes.c_uint16, b"u32": ctypes.c_uint32,
         b"u64": ctypes.c_uint64, b"i8": ctypes.c_int8, b"i16": ctypes.c_int16,
         b"i32": ctypes.c_int32, b"i64": ctypes.c_int64, b"usize": ctypes.c_uint64,
         b"isize": ctypes.c_int64, b"u128": ctypes.c_uint64 * 2, b"i128": ctypes.c_uint64 * 2}


def c_fixed(fixed: Fixed) -> CFixed:
    """A description as C writes it."""
    return CFixed(c_format(fixed.integer), fixed.point, fixed.places, int(fixed.takes_fewer))


class Library:
    """The calls of a shared library."""

    def __init__(self, path: str) -> None:
        """PATH: where libjadvolni.so is."""
        library = loaded(path)
        self.calls = {}
        for name in TYPES:
            for form in ("_fixed", "_fixed_front"):
                call = library[f"jadvolni_parse_{name.decode()}{form}"]
                call.restype = CResult
                call.argtypes = [ctypes.c_char_p, ctypes.c_size_t, ctypes.c_void_p, ctypes.c_void_p]
                self.calls[name, form] = call

    def read(self, name: bytes, fixed: CFixed, text: bytes, is_front: bool) -> tuple[int, int, int]:
        """Status, place, and the number behind the pointer."""
        slot = SLOTS[name]()
        is_wide = name.endswith(b"128")
        if is_wide:
            slot[0] = BEFORE
        else:
            slot.value = BEFORE
        call = self.calls[name, "_fixed_front" if is_front else "_fixed"]
        answer = call(text, len(text), ctypes.byref(fixed), ctypes.byref(slot))
        if not is_wide:
            return answer.status, answer.place, slot.value
        number = slot[0] + (slot[1] << 64)
        signed = name == b"i128" and number >> 127
        return answer.status, answer.place, number - (1 << 128) if signed else number


# ---- texts

def short_texts() -> Iterator[bytes]:
    """All short texts over a few bytes."""
    for length in range(SHORT + 1):
        for text in itertools.product(ALPHABET, repeat=length):
            yield bytes(text)


def random_texts(count: int, seed: int) -> Iterator[tuple[str, bytes, bytes]]:
    """Descriptions, types and texts."""
    chance = random.Random(seed)
    names, kinds = list(FIXED), list(TYPES)
    for _ in range(count):
        name, kind = chance.choice(names), chance.choice(kinds)
        yield name, kind, spoilt(chance, number_text(chance, FIXED[name], TYPES[kind]))


def all_texts(count: int, seed: int) -> Iterator[tuple[str, bytes, bytes]]:
    """All that is compared."""
    kinds = itertools.cycle((b"i8", b"u8", b"i64", b"u64", b"i16", b"u32", b"i128"))
    for name in FIXED:
        for text in short_texts():
            yield name, next(kinds), text
    yield from random_texts(count, seed)


def main() -> int:
    """The comparison; its status is 1 where answers differ."""
    parser = argparse.ArgumentParser(
        description=__doc__, formatter_class=argparse.RawDescriptionHelpFormatter)
    parser.add_argument("library", metavar="LIBRARY")
    parser.add_argument("count", metavar="COUNT", nargs="?", type=positive, default=1_000_000)
    parser.add_argument("seed", metavar="SEED", nargs="?", type=int, default=1)
    given = parser.parse_args()
    library, count, seed = Library(given.library), given.count, given.seed
    in_c = {name: c_fixed(fixed) for name, fixed in FIXED.items()}
    compared = differ = 0
    for name, kind, text in all_texts(count, seed):
        for is_front in (False, True):
            wanted = read(FIXED[name], TYPES[kind], text, is_front)
            if isinstance(wanted, Value):
                expected = NUMBERS["Ok"], wanted.stop, wanted.value
            else:
                expected = NUMBERS[wanted.name], wanted.place, BEFORE
            found = library.read(kind, in_c[name], text, is_front)
            compared += 1
            if found != expected:
                differ += 1
                if differ < 20:
                    print(f"{name} {kind.decode()} {text!r} front={is_front}: "
                          f"{STATUSES.get(found[0])} {found[1:]}, wanted "
                          f"{STATUSES.get(expected[0])} {expected[1:]}", file=sys.stderr)
    print(f"{compared} answers compared, {differ} differ")
    return 1 if differ else 0


if __name__ == "__main__":
    sys.exit(main())
