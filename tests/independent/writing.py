"""Document 02, [4]: a list of commands written as a job stream, and a whole stream read as such a list.

A list of commands is six lists side by side: the command bytes, and for each an
operand of each kind. Here a command is a row of these six.
"""

from . import Refused
from .stream import END, LONGEST_STREAM, read_command

LISTS = ("kinds", "sizes", "shares", "numbers", "randoms", "amounts")

# Command byte -> where each of its operands stands in a row, and its width in bytes.
FIELDS = {
    1: ((3, 4), (5, 8), (4, 4)),
    2: ((1, 1), (3, 4)),
    3: ((1, 1), (2, 2)),
    4: ((1, 1), (3, 4)),
    5: ((5, 8),),
    6: (),
    7: (),
}
CODES = {"unit": 1, "draw": 2, "share": 3, "relative": 4, "open": 5, "quarter": 6, "close": 7}


def octets_of(row):
    """ "An operand that a command does not have is not written." """
    text = bytes([row[0]])
    for place, width in FIELDS[row[0]]:
        for power in reversed(range(width)):
            text += bytes([row[place] // 256**power % 256])
    return text


def length_of(kind):
    """ "For 15 an unknown command counts one byte." """
    return 1 + sum(width for _, width in FIELDS.get(kind, ()))


def write(kinds, sizes, shares, numbers, randoms, amounts, out):
    """The length, and the buffer afterwards: 27 unequal, 15, 16, 27 too short, in this order."""
    if any(len(column) != len(kinds) for column in (sizes, shares, numbers, randoms, amounts)):
        return Refused(27), out
    needed = sum(map(length_of, kinds))
    if needed > LONGEST_STREAM:
        return Refused(15), out
    if any(kind not in FIELDS for kind in kinds):
        return Refused(16), out
    if len(out) < needed:
        return Refused(27), out
    text = b"".join(map(octets_of, zip(kinds, sizes, shares, numbers, randoms, amounts)))
    return needed, text + out[needed:]


def row_of(command):
    """A command as a row; "an operand that a command does not have … counts as 0"."""
    name, *operands = command
    row = [CODES[name], 0, 0, 0, 0, 0]
    for (place, _), operand in zip(FIELDS[row[0]], operands):
        row[place] = operand
    return row


def read_all(stream, kinds, sizes, shares, numbers, randoms, amounts):
    """The count of commands and the six lists afterwards: 15, 16 or 17 of the reader, and then 6 where a list is too short."""
    lists = [kinds, sizes, shares, numbers, randoms, amounts]
    rows, rest = [], stream
    while True:
        command, rest = read_command(rest)
        if isinstance(command, Refused):
            return command, *lists
        if command == END:
            break
        rows.append(row_of(command))
    if any(len(column) < len(rows) for column in lists):
        return Refused(6), *lists
    news = [[row[place] for row in rows] for place in range(len(lists))]
    return len(rows), *(new + old[len(rows) :] for new, old in zip(news, lists))
