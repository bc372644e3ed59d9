#!/usr/bin/env python3
"""Draw with the take-all list of the year before, so that a firm at the border stays (document 02, [9]).

    ./build.sh
    python3 examples/kept.py

In the first year firm 12 is take-all. In the second it is just under the limit: without
the list it is sampled or not, as its random number will have it; with the list it is kept.
"""

import ctypes
from ctypes import c_size_t, c_uint32, c_uint64
from pathlib import Path

NUMBERS = [11, 12, 13, 14, 15]
FIRST_YEAR = [70_000_000, 25_000_000, 8_000_000, 7_000_000, 5_000_000]
SECOND_YEAR = [70_000_000, 9_500_000, 8_000_000, 7_000_000, 5_000_000]
RANDOMS = [300_000, 900_000, 200_000, 500_000, 100_000]
SIZE = 3
THRESHOLD = 600


class Taken(ctypes.Structure):
    _fields_ = [("refusal", c_uint32), ("q", c_uint64), ("n", c_uint64), ("rest", c_uint64)]


class Drawn(ctypes.Structure):
    _fields_ = [("refusal", c_uint32), ("n", c_uint64), ("rest", c_uint64)]


def lent(kind, values):
    """A lent list: a pointer and a count."""
    return (kind * len(values))(*values), c_size_t(len(values))


def accepted(answer):
    if answer.refusal:
        raise SystemExit(f"kept.py: refusal {answer.refusal} (docs/REFUSALS.md)")
    return answer


def take_all(turnovers):
    """The base group as unit numbers: with no lists."""
    units = lent(c_uint32, [0] * SIZE)
    frame = (*lent(c_uint32, NUMBERS), *lent(c_uint64, turnovers), c_size_t(SIZE))
    taken = accepted(LIBRARY.vougecress_take_all_units(*frame, c_uint32(THRESHOLD), *lent(c_uint32, []), *lent(c_uint32, []), *units))
    return units[0][: taken.q]


def draw(turnovers, before):
    """The panel of a draw with one previous list, and what it was drawn with."""
    panel, weights = lent(c_uint32, [0] * SIZE), lent(c_uint64, [0] * SIZE)
    frame = (*lent(c_uint32, NUMBERS), *lent(c_uint64, turnovers), *lent(c_uint32, RANDOMS), c_size_t(SIZE), c_uint32(0))
    drawn = accepted(LIBRARY.vougecress_draw_kept(*frame, c_uint32(THRESHOLD), *lent(c_uint32, before), *lent(c_uint32, []), *panel, *weights))
    return f"panel {' '.join(map(str, panel[0]))}, n {drawn.n}, X {drawn.rest}"


try:
    LIBRARY = ctypes.CDLL(str(Path(__file__).resolve().parent.parent / "build" / "libvougecress.so"))
except OSError as error:
    raise SystemExit(f"kept.py: {error}; ./build.sh builds the library")
LIBRARY.vougecress_take_all_units.restype = Taken
LIBRARY.vougecress_draw_kept.restype = Drawn
before = take_all(FIRST_YEAR)
print("take-all of the first year:", *before)
print("second year, no list:", draw(SECOND_YEAR, []))
print("second year, with it:", draw(SECOND_YEAR, before))
