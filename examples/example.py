"""The worked year of example.c from Python, by ctypes.

    ./build.sh
    python3 examples/example.py
"""

import ctypes
from ctypes import Structure, c_size_t, c_uint8, c_uint32, c_uint64
from pathlib import Path

try:
    LIBRARY = ctypes.CDLL(str(Path(__file__).resolve().parent.parent / "build" / "libvougecress.so"))
except OSError as error:
    raise SystemExit(f"example.py: {error}; ./build.sh builds the library")
RECORD = 104
WHOLE_SHARE = 10_000
INDEX_OF_100 = 10**9


class Taken(Structure):
    _fields_ = [("refusal", c_uint32), ("q", c_uint64), ("n", c_uint64), ("rest", c_uint64)]


class Drawn(Structure):
    _fields_ = [("refusal", c_uint32), ("n", c_uint64), ("rest", c_uint64)]


class Rotated(Structure):
    _fields_ = [("refusal", c_uint32), ("k", c_uint32), ("start", c_uint32), ("count", c_uint64)]


class Figure(Structure):
    _fields_ = [("refusal", c_uint32), ("figure", c_uint64)]


LIBRARY.vougecress_take_all.restype = Taken
LIBRARY.vougecress_draw.restype = Drawn
LIBRARY.vougecress_rotate.restype = Rotated
for name in ("vougecress_quarter", "vougecress_close", "vougecress_total"):
    getattr(LIBRARY, name).restype = Figure


def lent(kind, values):
    """A lent list: a pointer and a count."""
    return (kind * len(values))(*values), c_size_t(len(values))


def accepted(call, answer):
    """An answer that is no refusal, or the end."""
    number = answer if isinstance(answer, int) else answer.refusal
    if number:
        raise SystemExit(f"{call}: refusal {number} (docs/REFUSALS.md)")
    return answer


NUMBERS = [11, 12, 13, 14, 15]
TURNOVERS = [70_000_000, 10_000_000, 8_000_000, 7_000_000, 5_000_000]
RANDOMS = [300_000, 500_000, 200_000, 900_000, 100_000]
FRAME = (*lent(c_uint32, NUMBERS), *lent(c_uint64, TURNOVERS), *lent(c_uint32, RANDOMS))
SIZE = 3


def draw(start):
    """The panel and its weights, printed. A panel unit is take-all if its place in the frame is marked."""
    marks, panel, weights = lent(c_uint8, [0] * len(NUMBERS)), lent(c_uint32, [0] * SIZE), lent(c_uint64, [0] * SIZE)
    accepted("take-all", LIBRARY.vougecress_take_all(*lent(c_uint64, TURNOVERS), c_size_t(SIZE), *marks))
    drawn = accepted("draw", LIBRARY.vougecress_draw(*FRAME, c_size_t(SIZE), c_uint32(start), *panel, *weights))
    print(f"draw from start {start}: n = {drawn.n}, X = {drawn.rest}")
    for unit, weight in zip(panel[0], weights[0]):
        print(f"  unit {unit} weight {weight} {'take-all' if marks[0][NUMBERS.index(unit)] else 'sampled'}")
    return panel, weights


def open_chain(weights, updating, start):
    """A record on a panel's weights; every unit belongs to the sector wholly."""
    record = lent(c_uint64, [0] * RECORD)
    lists = (*weights, *lent(c_uint32, [WHOLE_SHARE] * SIZE), *lent(c_uint32, updating))
    accepted("open", LIBRARY.vougecress_open(*lists, c_uint64(start), *record))
    print(f"opened at {start}")
    return record


def quarter(name, record, relatives):
    answer = accepted(name, LIBRARY.vougecress_quarter(*record, *lent(c_uint32, relatives)))
    print(f"{name}: {answer.figure}")


panel, weights = draw(0)
record = open_chain(weights, [100_000, 100_000, 100_000], INDEX_OF_100)

# Measured against the opening: 2 percent, and then 2 percent more, are 102,000 and 104,040.
quarter("first quarter", record, [102_000, 102_000, 102_000])
quarter("second quarter", record, [104_040, 104_040, 104_040])
quarter("third quarter", record, [105_000, 99_000, 115_000])
close = accepted("close", LIBRARY.vougecress_close(*record, *lent(c_uint32, [105_000, 98_000, 120_000])))
print(f"close of the year: {close.figure}")

leavers = lent(c_uint32, [0] * SIZE)
NO_BIRTHS = (c_size_t(0), c_uint64(0), *lent(c_uint32, []))
rotation = (*FRAME, c_size_t(SIZE), c_uint32(0), *panel, c_uint32(500), *NO_BIRTHS, *leavers)
turn = accepted("rotation", LIBRARY.vougecress_rotate(*rotation))
left = " ".join(str(unit) for unit in leavers[0][: turn.count])
print(f"rotation of half: step {turn.k}, new start {turn.start}, leavers {left}")
panel, weights = draw(turn.start)
record = open_chain(weights, [105_000, 103_000, 98_000], close.figure)
quarter("first quarter", record, [100_000, 101_000, 102_000])

# A refused call answers its number, and the record is as it was.
refusal = LIBRARY.vougecress_quarter(*record, *lent(c_uint32, [24_999, 100_000, 100_000])).refusal
print(f"a relative of 24,999: refusal {refusal}{' (relatives)' if refusal == 13 else ''}")

sectors = (*lent(c_uint32, [600_000, 400_000]), *lent(c_uint64, [close.figure, INDEX_OF_100]))
total = accepted("total", LIBRARY.vougecress_total(*sectors))
print(f"total of the year over two sectors: {total.figure}")
