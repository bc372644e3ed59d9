#!/usr/bin/env python3
"""One chain through three panels (document 02, [11]), the last one with an outside share.

    ./build.sh
    python3 examples/renewals.py

A rate contract runs on while the panel is renewed: the index and the links go
onward, the closes of each panel begin at 0.
"""

import ctypes
from ctypes import c_size_t, c_uint8, c_uint32, c_uint64
from pathlib import Path

UNITS, INDEX, CLOSES, LINKS, RECORD = 0, 1, 2, 3, 104


class Figure(ctypes.Structure):
    _fields_ = [("refusal", c_uint32), ("figure", c_uint64)]


try:
    LIBRARY = ctypes.CDLL(str(Path(__file__).resolve().parent.parent / "build" / "libvougecress.so"))
except OSError as error:
    raise SystemExit(f"renewals.py: {error}; ./build.sh builds the library")
for name in ("vougecress_quarter", "vougecress_close"):
    getattr(LIBRARY, name).restype = Figure


def lent(kind, values):
    """A lent list: a pointer and a count."""
    return (kind * len(values))(*values), c_size_t(len(values))


def accepted(what, number):
    if number:
        raise SystemExit(f"renewals.py: {what}: refusal {number} (docs/REFUSALS.md)")


def panel(weights):
    """W, whole shares, and no change since the reference year."""
    whole, still = [10_000] * len(weights), [100_000] * len(weights)
    return (*lent(c_uint64, weights), *lent(c_uint32, whole), *lent(c_uint32, still))


def figure(what, call, relatives):
    answer = call(*record, *lent(c_uint32, relatives))
    accepted(what, answer.refusal)
    print(f"{what}: {answer.figure}, {held()}")


def held():
    numbers = record[0]
    return f"units {numbers[UNITS]}, closes {numbers[CLOSES]}, links {numbers[LINKS]}"


record = lent(c_uint64, [0] * RECORD)
accepted("open", LIBRARY.vougecress_open(*panel([2_000_000, 2_000_000]), c_uint64(10**9), *record))
print(f"opened at {record[0][INDEX]}, {held()}")
figure("close", LIBRARY.vougecress_close, [110_000, 100_000])
accepted("renewal", LIBRARY.vougecress_renew(*panel([3_000_000]), *record))
print(f"renewed at {record[0][INDEX]}, {held()}")
figure("close", LIBRARY.vougecress_close, [104_000])
sampled = lent(c_uint8, [0, 1, 1])
accepted("renewal", LIBRARY.vougecress_renew_outside(*panel([8_000_000, 4_000_000, 4_000_000]), *sampled, c_uint32(8_000), *record))
print(f"renewed at {record[0][INDEX]} with an outside share, {held()}")
figure("quarter", LIBRARY.vougecress_quarter, [101_000, 102_000, 103_000])
