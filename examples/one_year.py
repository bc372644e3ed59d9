#!/usr/bin/env python3
"""Make a year in one call: three quarters and the close (document 02, [6]).

    ./build.sh
    python3 examples/one_year.py 101000 102000 103000 104000

The four numbers are the relatives of one carrier, whose chain is opened at 100. A
refused year has the figures of the calls before it, and its chain is as it was.
"""

import ctypes
import sys
from ctypes import c_size_t, c_uint32, c_uint64
from pathlib import Path

RECORD = 104
INDEX, CLOSES = 1, 2


class Came(ctypes.Structure):
    _fields_ = [("refusal", c_uint32), ("count", c_uint64)]


def lent(kind, values):
    """A lent list: a pointer and a count."""
    return (kind * len(values))(*values), c_size_t(len(values))


relatives = sys.argv[1:]
if len(relatives) != 4 or not all(word.isdecimal() and int(word) < 2**32 for word in relatives):
    print(__doc__, file=sys.stderr)
    raise SystemExit(2)
try:
    library = ctypes.CDLL(str(Path(__file__).resolve().parent.parent / "build" / "libvougecress.so"))
except OSError as error:
    raise SystemExit(f"one_year.py: {error}; ./build.sh builds the library")
library.vougecress_year.restype = Came
record = lent(c_uint64, [0] * RECORD)
opened = library.vougecress_open(
    *lent(c_uint64, [2_000_000]), *lent(c_uint32, [10_000]), *lent(c_uint32, [100_000]), c_uint64(10**9), *record
)
if opened:
    raise SystemExit(f"one_year.py: refusal {opened} (docs/REFUSALS.md)")
figures = lent(c_uint64, [0] * 4)
lists = [part for word in relatives for part in lent(c_uint32, [int(word)])]
year = library.vougecress_year(*record, *lists, *figures)
for place in range(year.count):
    print("C" if place == 3 else "Q", figures[0][place])
print(f"index {record[0][INDEX]}, closes {record[0][CLOSES]}")
if year.refusal:
    print(f"one_year.py: refusal {year.refusal} at call {year.count + 1} (docs/REFUSALS.md)", file=sys.stderr)
    raise SystemExit(1)
