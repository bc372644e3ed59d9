#!/usr/bin/env python3
"""Share a sample over sectors (document 02, [10]) and print it as comma lines.

    python3 examples/share_sample.py T STRENGTH,MINIMUM...

T is the number of interviews, at most 6,400; each sector is its strength, 1 to
10^9, and its minimum. A line has the sector's number, strength and minimum, its
interviews, and for checking by hand its quota's whole part and remainder (both 0
for a sector that got its minimum and left). Status 0 done, 1 refused, 2 wrong use.
"""

import ctypes
import sys
from pathlib import Path

LIBRARY = Path(__file__).resolve().parent.parent / "build" / "libvougecress.so"
PLACES = 64


class Allocation(ctypes.Structure):
    _fields_ = [
        ("refusal", ctypes.c_uint32),
        ("counts", ctypes.c_uint64 * PLACES),
        ("wholes", ctypes.c_uint64 * PLACES),
        ("remainders", ctypes.c_uint64 * PLACES),
    ]


def lent(values):
    """A lent list: a pointer and a count."""
    return (ctypes.c_uint64 * len(values))(*values), ctypes.c_size_t(len(values))


def shared(interviews, strengths, minima):
    """The library's answer."""
    library = ctypes.CDLL(str(LIBRARY))
    library.vougecress_sample.restype = Allocation
    return library.vougecress_sample(ctypes.c_uint64(interviews), *lent(strengths), *lent(minima))


def numbers_in(word, count):
    """The numbers of a word, or None."""
    parts = word.split(",")
    good = len(parts) == count and all(part.isascii() and part.isdigit() and len(part) <= 19 for part in parts)
    return [int(part) for part in parts] if good else None


def main(words):
    total, sectors = numbers_in(words[0], 1) if words else None, [numbers_in(word, 2) for word in words[1:]]
    if total is None or not sectors or None in sectors:
        print("usage: share_sample.py T STRENGTH,MINIMUM...", file=sys.stderr)
        return 2
    if not LIBRARY.exists():
        print("share_sample: run ./build.sh first", file=sys.stderr)
        return 2
    strengths, minima = ([sector[k] for sector in sectors] for k in (0, 1))
    answer = shared(total[0], strengths, minima)
    if answer.refusal:
        print(f"share_sample: refusal {answer.refusal} (docs/REFUSALS.md)", file=sys.stderr)
        return 1
    for i, (strength, minimum) in enumerate(sectors):
        print(i + 1, strength, minimum, answer.counts[i], answer.wholes[i], answer.remainders[i], sep=",")
    return 0


if __name__ == "__main__":
    sys.exit(main(sys.argv[1:]))
