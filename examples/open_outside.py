#!/usr/bin/env python3
"""Open a chain with a domain share from the national accounts (document 02, [7]).

    python3 examples/open_outside.py G SHARE SHARE SHARE

Draws three of document 01's frame, marks which of them were sampled, and opens at
an index of 100 with G and the three shares, in ten-thousandths. A line has the
unit's number, its W, whether it is take-all or sampled, and its weight v.
Status 0 done, 1 refused, 2 wrong use.
"""

import ctypes
import sys
from ctypes import c_size_t, c_uint8, c_uint32, c_uint64
from pathlib import Path

LIBRARY = Path(__file__).resolve().parent.parent / "build" / "libvougecress.so"
NUMBERS = [11, 12, 13, 14, 15]
TURNOVERS = [70_000_000, 10_000_000, 8_000_000, 7_000_000, 5_000_000]
RANDOMS = [300_000, 500_000, 200_000, 900_000, 100_000]
SIZE = 3
WEIGHTS, RECORD = 4, 104  # first weight of a record, and its places


class Taken(ctypes.Structure):
    _fields_ = [("refusal", c_uint32), ("q", c_uint64), ("n", c_uint64), ("rest", c_uint64)]


class Drawn(ctypes.Structure):
    _fields_ = [("refusal", c_uint32), ("n", c_uint64), ("rest", c_uint64)]


def array(kind, values):
    return (kind * len(values))(*values)


def lent(values):
    """A lent list: a pointer and a count."""
    return values, c_size_t(len(values))


def sampled_marks(library, panel):
    """1 for a sampled unit of a drawn panel: the contrary of what take-all marks at its place in the frame."""
    library.vougecress_take_all.restype = Taken
    group = array(c_uint8, [0] * len(NUMBERS))
    library.vougecress_take_all(*lent(array(c_uint64, TURNOVERS)), c_size_t(SIZE), *lent(group))
    return [1 - group[NUMBERS.index(unit)] for unit in panel]


def drawn(library):
    """The panel's unit numbers and their W."""
    library.vougecress_draw.restype = Drawn
    panel, weights = array(c_uint32, [0] * SIZE), array(c_uint64, [0] * SIZE)
    frame = (array(c_uint32, NUMBERS), array(c_uint64, TURNOVERS), array(c_uint32, RANDOMS))
    library.vougecress_draw(*(part for column in frame for part in lent(column)), c_size_t(SIZE), c_uint32(0), *lent(panel), *lent(weights))
    return list(panel), weights


def main(words):
    if len(words) != 1 + SIZE or not all(word.isascii() and word.isdigit() and len(word) < 10 for word in words):
        print("usage: open_outside.py G SHARE SHARE SHARE", file=sys.stderr)
        return 2
    if not LIBRARY.exists():
        print("open_outside: run ./build.sh first", file=sys.stderr)
        return 2
    library = ctypes.CDLL(str(LIBRARY))
    domain, *shares = map(int, words)
    panel, weights = drawn(library)
    marks, record = sampled_marks(library, panel), array(c_uint64, [0] * RECORD)
    updates = array(c_uint32, [100_000 if share else 0 for share in shares])
    library.vougecress_open_outside.restype = c_uint32
    refusal = library.vougecress_open_outside(
        *lent(weights), *lent(array(c_uint32, shares)), *lent(updates), c_uint64(10**9), *lent(array(c_uint8, marks)), c_uint32(domain), *lent(record)
    )
    if refusal:
        print(f"open_outside: refusal {refusal} (docs/REFUSALS.md)", file=sys.stderr)
        return 1
    for i, unit in enumerate(panel):
        print(unit, weights[i], "sampled" if marks[i] else "take-all", record[WEIGHTS + i])
    return 0


if __name__ == "__main__":
    sys.exit(main(sys.argv[1:]))
