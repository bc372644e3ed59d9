#!/usr/bin/env python3
"""Print the quarterly sheet (document 02, [12]): a line for each sector, and one for their total.

    python3 examples/make_sheet.py examples/sheet.txt

Each line of the file is a sector: its share in millionths, its figure, its
figure of the year before, and its name, spaces between. The shares add to
1,000,000. The total of either year is the library's total over the sectors,
and every line is laid by vougecress_sheet. Status 0 done, 1 refused, 2 wrong use.
"""

import ctypes
import sys
from ctypes import c_int64, c_size_t, c_uint8, c_uint32, c_uint64
from pathlib import Path

LIBRARY = Path(__file__).resolve().parent.parent / "build" / "libvougecress.so"
LINE_BYTES = 49


class Figure(ctypes.Structure):
    _fields_ = [("refusal", c_uint32), ("figure", c_uint64)]


class Laid(ctypes.Structure):
    _fields_ = [("refusal", c_uint32), ("change", c_int64), ("rest", c_uint64)]


class Refused(Exception):
    """A call's refusal and what it was asked for."""


def lent(kind, values):
    """A lent list: a pointer and a count."""
    return (kind * len(values))(*values), c_size_t(len(values))


def total(library, shares, figures):
    answer = library.vougecress_total(*lent(c_uint32, shares), *lent(c_uint64, figures))
    if answer.refusal:
        raise Refused(f"the total: refusal {answer.refusal}")
    return answer.figure


def line(library, name, figure, before):
    out = (c_uint8 * LINE_BYTES)()
    answer = library.vougecress_sheet(*lent(c_uint8, name), c_uint64(figure), c_uint64(before), out, c_size_t(LINE_BYTES))
    if answer.refusal:
        raise Refused(f"{name.decode(errors='replace')}: refusal {answer.refusal}")
    return bytes(out)


def sheet(sectors):
    """The lines of the sectors and of their total."""
    library = ctypes.CDLL(str(LIBRARY))
    library.vougecress_total.restype, library.vougecress_sheet.restype = Figure, Laid
    shares, figures, before, names = map(list, zip(*sectors))
    totals = [total(library, shares, figures), total(library, shares, before)]
    return b"".join(line(library, *row) for row in [*zip(names, figures, before), (b"Total", *totals)])


def read(text):
    """Share, figure, figure of the year before, name; a number that no word of the library holds is none."""
    sectors = [row.split(maxsplit=3) for row in text.splitlines()]
    for share, figure, before, name in sectors:
        if not all(word.isdigit() and len(word) < 20 for word in (share, figure, before)) or len(share) > 9:
            raise ValueError(share)
        yield int(share), int(figure), int(before), name


def main(words):
    if len(words) != 1 or not LIBRARY.exists():
        print("usage: make_sheet.py FILE (./build.sh builds the library)", file=sys.stderr)
        return 2
    try:
        sectors = list(read(Path(words[0]).read_bytes()))
    except (OSError, ValueError):
        sectors = []
    if not sectors:
        print("make_sheet: each line is a share, a figure, a figure of the year before and a name", file=sys.stderr)
        return 2
    try:
        sys.stdout.write(sheet(sectors).decode("ascii"))
    except Refused as refusal:
        print(f"make_sheet: {refusal} (docs/REFUSALS.md)", file=sys.stderr)
        return 1
    return 0


if __name__ == "__main__":
    sys.exit(main(sys.argv[1:]))
