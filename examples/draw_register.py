#!/usr/bin/env python3
"""Draw a panel from a register of comma lines (document 02, [14]): number, turnover, random number.

    python3 examples/draw_register.py FILE SIZE START

Prints `N n rest` and a line `P number weight` for each unit of the panel. A
refusal is said with its number; 34 also with the offset where the first bad
line begins, that line's number, and the line. Status 0 done, 1 refused, 2 wrong use.
"""

import ctypes
import sys
from ctypes import c_size_t, c_uint32, c_uint64
from pathlib import Path

LIBRARY = Path(__file__).resolve().parent.parent / "build" / "libvougecress.so"
MOST_UNITS = 16_384
MOST_PANEL = 100
BAD_LINE = 34
TOO_MANY = 35


class Register(ctypes.Structure):
    _fields_ = [("refusal", c_uint32), ("count", c_uint64), ("offset", c_uint64)]


class Drawn(ctypes.Structure):
    _fields_ = [("refusal", c_uint32), ("n", c_uint64), ("rest", c_uint64)]


class Refused(Exception):
    """A refusal's number and what the user is told."""


def lent(arrays, places):
    """Lent lists: a pointer and a count each."""
    return [argument for array in arrays for argument in (array, c_size_t(places))]


def imported(library, text):
    """The three lists, room for a whole frame each, and the count of units."""
    library.vougecress_import.restype = Register
    lists = [(kind * MOST_UNITS)() for kind in (c_uint32, c_uint64, c_uint32)]
    answer = library.vougecress_import(text, c_size_t(len(text)), *lent(lists, MOST_UNITS))
    if answer.refusal == BAD_LINE:
        number = text.count(b"\n", 0, answer.offset) + 1
        line = text[answer.offset :].split(b"\n")[0][:60]
        raise Refused(f"refusal 34 at offset {answer.offset}: line {number} is not number,turnover,random: {line!r}")
    if answer.refusal == TOO_MANY:
        raise Refused(f"refusal 35: more than {MOST_UNITS:,} lines")
    return lists, answer.count


def drawn(library, lists, count, size, start):
    """The answer, the panel and its weights."""
    library.vougecress_draw.restype = Drawn
    room = min(size, MOST_PANEL)
    panel, weights = (c_uint32 * room)(), (c_uint64 * room)()
    answer = library.vougecress_draw(*lent(lists, count), c_size_t(size), c_uint32(start), *lent((panel, weights), room))
    if answer.refusal:
        raise Refused(f"the draw is refused by {answer.refusal} (docs/REFUSALS.md)")
    return answer, panel, weights


def main(words):
    if len(words) != 3 or not all(word.isascii() and word.isdigit() and len(word) <= 9 for word in words[1:]):
        print("usage: draw_register.py FILE SIZE START", file=sys.stderr)
        return 2
    try:
        library = ctypes.CDLL(str(LIBRARY))
        text = Path(words[0]).read_bytes()
    except OSError as error:
        print(f"draw_register: {error} (./build.sh builds the library)", file=sys.stderr)
        return 2
    try:
        answer, panel, weights = drawn(library, *imported(library, text), int(words[1]), int(words[2]))
    except Refused as refused:
        print(f"draw_register: {words[0]}: {refused}", file=sys.stderr)
        return 1
    print("N", answer.n, answer.rest)
    for unit, weight in zip(panel, weights):
        print("P", unit, weight)
    return 0


if __name__ == "__main__":
    sys.exit(main(sys.argv[1:]))
