#!/usr/bin/env python3
"""Print the leavers of a rotation in the order in which they are written (document 02, [1]).

    ./build.sh
    python3 examples/leavers.py

Units 1 to 4 of six are the old panel and all shall leave. Units 2 and 4 have the
largest turnover, and the lower number stands first.
"""

import ctypes
from ctypes import c_size_t, c_uint32, c_uint64
from pathlib import Path

TURNOVERS = {1: 10, 2: 30, 3: 20, 4: 30, 5: 25, 6: 15}
RANDOMS = [100_000, 50_000, 150_000, 20_000, 900_000, 950_000]
OLD_PANEL = [1, 2, 3, 4]


class Rotated(ctypes.Structure):
    _fields_ = [("refusal", c_uint32), ("k", c_uint32), ("start", c_uint32), ("count", c_uint64)]


def lent(kind, values):
    """A lent list: a pointer and a count."""
    return (kind * len(values))(*values), c_size_t(len(values))


try:
    library = ctypes.CDLL(str(Path(__file__).resolve().parent.parent / "build" / "libvougecress.so"))
except OSError as error:
    raise SystemExit(f"leavers.py: {error}; ./build.sh builds the library")
library.vougecress_rotate.restype = Rotated
frame = (*lent(c_uint32, list(TURNOVERS)), *lent(c_uint64, list(TURNOVERS.values())), *lent(c_uint32, RANDOMS))
leavers = lent(c_uint32, [0] * len(OLD_PANEL))
no_births = (c_size_t(0), c_uint64(0), *lent(c_uint32, []))
old_panel = lent(c_uint32, OLD_PANEL)
turn = library.vougecress_rotate(*frame, c_size_t(1), c_uint32(0), *old_panel, c_uint32(1_000), *no_births, *leavers)
if turn.refusal:
    raise SystemExit(f"leavers.py: refusal {turn.refusal} (docs/REFUSALS.md)")
print(f"step {turn.k}, new start {turn.start}")
for unit in leavers[0][: turn.count]:
    print(f"unit {unit} turnover {TURNOVERS[unit]}")
