#!/usr/bin/env python3
"""Print a test load (document 02, [13]) as comma lines: number, turnover, random number.

    python3 examples/make_load.py START COUNT > load.csv

START is a number below 2^31, COUNT is 1 to 16,384. The lines are what the
library's vougecress_load fills into three lists, so that two bureaus which
make the same load print the same lines. Status 0 done, 1 refused, 2 wrong use.
"""

import ctypes
import sys
from pathlib import Path

LIBRARY = Path(__file__).resolve().parent.parent / "build" / "libvougecress.so"
MOST_UNITS = 16_384


class Loaded(ctypes.Structure):
    _fields_ = [("refusal", ctypes.c_uint32), ("count", ctypes.c_uint64)]


def made(start, count):
    """The three lists, or the number of the refusal."""
    library = ctypes.CDLL(str(LIBRARY))
    library.vougecress_load.restype = Loaded
    room = min(count, MOST_UNITS)
    numbers, turnovers, randoms = ((kind * room)() for kind in (ctypes.c_uint32, ctypes.c_uint64, ctypes.c_uint32))
    lists = [argument for array in (numbers, turnovers, randoms) for argument in (array, ctypes.c_size_t(room))]
    answer = library.vougecress_load(ctypes.c_uint64(start), ctypes.c_size_t(count), *lists)
    return answer.refusal or zip(numbers, turnovers, randoms)


def main(words):
    if len(words) != 2 or not all(word.isascii() and word.isdigit() and len(word) <= 19 for word in words):
        print("usage: make_load.py START COUNT", file=sys.stderr)
        return 2
    if not LIBRARY.exists():
        print("make_load: run ./build.sh first", file=sys.stderr)
        return 2
    units = made(int(words[0]), int(words[1]))
    if isinstance(units, int):
        print(f"make_load: refusal {units}: START is below 2^31 and COUNT is 1 to {MOST_UNITS:,}", file=sys.stderr)
        return 1
    sys.stdout.write("".join(f"{number},{turnover},{random}\n" for number, turnover, random in units))
    return 0


if __name__ == "__main__":
    sys.exit(main(sys.argv[1:]))
