#!/usr/bin/env python3
"""The bytes of a job by the library's writer, and the job of a stream by its reader (document 02, [4]).

    python3 examples/write_stream.py FILE > job.stream
    python3 examples/write_stream.py --read job.stream

The first turns the lines of FILE into six lists and these, by vougecress_write, into
bytes; they are the bytes of make_stream.py, which needs no library. The second turns
a stream, by vougecress_read_all, into six lists and prints them as lines.
Status 0 done, 1 refused, 2 wrong use or a bad line.
"""

import ctypes
import os
import sys
from pathlib import Path

TOP = Path(__file__).resolve().parent.parent
sys.path.insert(0, os.path.join(TOP, "tools"))
sys.dont_write_bytecode = True
import job
from limits import MOST_STREAM

LIBRARY = TOP / "build" / "libvougecress.so"
MOST_TEXT = 2**24  # bytes that a frame's draws may print
# Six lists side by side: command byte; size or place; share; number, start or relative; random number; turnover or start index.
WIDTHS = (ctypes.c_uint8, ctypes.c_uint8, ctypes.c_uint16, ctypes.c_uint32, ctypes.c_uint32, ctypes.c_uint64)
# Word -> the list of each operand.
COLUMNS = {"unit": (3, 5, 4), "draw": (1, 3), "share": (1, 2), "relative": (1, 3), "open": (5,), "quarter": (), "close": ()}


class Answer(ctypes.Structure):
    """Of each of the three calls: a refusal, and the bytes or commands that stand in what was lent."""

    _fields_ = [("refusal", ctypes.c_uint32), ("count", ctypes.c_uint64)]


class Refused(Exception):
    """The library's refusal."""


def call(name, *lists):
    """The count that a function of the library answers; each list is lent as a pointer and a count."""
    function = getattr(ctypes.CDLL(str(LIBRARY)), name)
    function.restype = Answer
    answer = function(*[argument for array in lists for argument in (array, ctypes.c_size_t(len(array)))])
    if answer.refusal:
        raise Refused(f"refusal {answer.refusal}")
    return answer.count


def octets(data):
    return (ctypes.c_uint8 * len(data)).from_buffer_copy(data)


def printed(stream):
    """What a stream prints: the panels, from which units that are named by number get their places."""
    text = (ctypes.c_uint8 * MOST_TEXT)()
    return bytes(text[: call("vougecress_run", octets(stream), text)])


def written(commands):
    """The stream of a list of commands."""
    rows = [[0] * len(WIDTHS) for _ in commands]
    for row, command in zip(rows, commands):
        row[0] = job.COMMANDS[command.word][0]
        for column, operand in zip(COLUMNS[command.word], command.operands):
            row[column] = operand
    lists = [(width * len(rows))(*(row[column] for row in rows)) for column, width in enumerate(WIDTHS)]
    out = (ctypes.c_uint8 * MOST_STREAM)()
    return bytes(out[: call("vougecress_write", *lists, out)])


def lines_of(stream):
    """The commands of a stream, one a line."""
    lists = [(width * MOST_STREAM)() for width in WIDTHS]
    count = call("vougecress_read_all", octets(stream), *lists)
    for row in list(zip(*lists))[:count]:
        word = job.WORD_OF[row[0]]
        yield " ".join([word, *(str(row[column]) for column in COLUMNS[word])])


def main(words):
    if len(words) not in (1, 2) or (len(words) == 2 and words[0] != "--read") or words[-1].startswith("-"):
        print("usage: write_stream.py [--read] FILE", file=sys.stderr)
        return 2
    if not LIBRARY.exists():
        print("write_stream: run ./build.sh first", file=sys.stderr)
        return 2
    try:
        data = Path(words[-1]).read_bytes()
        if len(words) == 2:
            sys.stdout.write("".join(line + "\n" for line in lines_of(data)))
        else:
            commands, _ = job.commands_of(data)
            job.place_units(commands, printed)
            sys.stdout.buffer.write(written(commands))
    except Refused as why:
        print(f"write_stream: {why}", file=sys.stderr)
        return 1
    except (OSError, job.BadJob) as why:
        print(f"write_stream: {why}", file=sys.stderr)
        return 2
    return 0


if __name__ == "__main__":
    sys.exit(main(sys.argv[1:]))
