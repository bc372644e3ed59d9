#!/usr/bin/env python3
"""Draw a panel of two from one frame by each method (document 02, [8]).

    ./build.sh
    python3 examples/methods.py

Unit 3 has the random number 0, so that both methods take it. The other place goes to
unit 1 by the Pareto key, and to unit 4 by the sequential Poisson key r over turnover.
"""

import ctypes
from ctypes import c_size_t, c_uint32, c_uint64
from pathlib import Path

NUMBERS, TURNOVERS, RANDOMS = [1, 2, 3, 4], [50, 20, 50, 20], [400_000, 700_000, 0, 100_000]
SIZE, START = 2, 0


class Drawn(ctypes.Structure):
    _fields_ = [("refusal", c_uint32), ("n", c_uint64), ("rest", c_uint64)]


def lent(kind, values):
    """A lent list: a pointer and a count."""
    return (kind * len(values))(*values), c_size_t(len(values))


try:
    library = ctypes.CDLL(str(Path(__file__).resolve().parent.parent / "build" / "libvougecress.so"))
except OSError as error:
    raise SystemExit(f"methods.py: {error}; ./build.sh builds the library")
frame = (*lent(c_uint32, NUMBERS), *lent(c_uint64, TURNOVERS), *lent(c_uint32, RANDOMS))
for method, draw in (("Pareto", library.vougecress_draw), ("sequential Poisson", library.vougecress_draw_poisson)):
    draw.restype = Drawn
    panel, weights = lent(c_uint32, [0] * SIZE), lent(c_uint64, [0] * SIZE)
    answer = draw(*frame, c_size_t(SIZE), c_uint32(START), *panel, *weights)
    if answer.refusal:
        raise SystemExit(f"methods.py: refusal {answer.refusal} (docs/REFUSALS.md)")
    print(f"{method}: n = {answer.n}, X = {answer.rest}, units {' '.join(map(str, panel[0]))}, weights {' '.join(map(str, weights[0]))}")
