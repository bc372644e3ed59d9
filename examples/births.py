#!/usr/bin/env python3
"""Rotate a panel that a birth may join (document 02, [2]).

    ./build.sh
    python3 examples/births.py

Units 13 and 15 of five are the old panel, and half of the members shall leave. Unit 12 is a birth: it joins where
r x X < 1,000,000 x n x turnover. With n = 2 and X = 40,000,000 the two sides are equal and it stays out; with an X of
one euro less it joins.
"""

import ctypes
from ctypes import c_size_t, c_uint32, c_uint64
from pathlib import Path

NUMBERS = [11, 12, 13, 14, 15]
TURNOVERS = [70_000_000, 10_000_000, 8_000_000, 7_000_000, 5_000_000]
RANDOMS = [300_000, 500_000, 200_000, 900_000, 100_000]
OLD_PANEL = [13, 15]
BIRTHS = [12]


class Rotated(ctypes.Structure):
    _fields_ = [("refusal", c_uint32), ("k", c_uint32), ("start", c_uint32), ("count", c_uint64)]


def lent(kind, values):
    """A lent list: a pointer and a count."""
    return (kind * len(values))(*values), c_size_t(len(values))


try:
    library = ctypes.CDLL(str(Path(__file__).resolve().parent.parent / "build" / "libvougecress.so"))
except OSError as error:
    raise SystemExit(f"births.py: {error}; ./build.sh builds the library")
library.vougecress_rotate.restype = Rotated
frame = (*lent(c_uint32, NUMBERS), *lent(c_uint64, TURNOVERS), *lent(c_uint32, RANDOMS))
for rest in (40_000_000, 39_999_999):
    births = (c_size_t(2), c_uint64(rest), *lent(c_uint32, BIRTHS))
    leavers = lent(c_uint32, [0] * (len(OLD_PANEL) + len(BIRTHS)))
    old_panel = lent(c_uint32, OLD_PANEL)
    turn = library.vougecress_rotate(*frame, c_size_t(3), c_uint32(0), *old_panel, c_uint32(500), *births, *leavers)
    if turn.refusal:
        raise SystemExit(f"births.py: refusal {turn.refusal} (docs/REFUSALS.md)")
    left = " ".join(str(unit) for unit in leavers[0][: turn.count])
    print(f"X {rest}: step {turn.k}, new start {turn.start}, leavers {left}")
