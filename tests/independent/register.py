"""Document 02, [14]: registers as comma lines."""

from dataclasses import dataclass

from . import Refused

WIDTHS = (32, 64, 32)  # number, turnover, random number


@dataclass(frozen=True)
class BadLine(Refused):
    """34, with the offset where the first such line begins."""

    number: int = 34
    offset: int = 0


def lines(text):
    """(offset, line without its end) of each line. A carriage return with no line feed after it stays in the line."""
    at = 0
    for piece in text.split(b"\n"):
        ended = at + len(piece) < len(text)  # by a line feed
        if ended or piece:
            yield at, piece[:-1] if ended and piece.endswith(b"\r") else piece
        at += len(piece) + 1


def field_of(octets, width):
    """The number of a field, or None."""
    if not 1 <= len(octets) <= 20 or any(c not in b"0123456789" for c in octets):
        return None
    number = int(octets)
    return number if number < 2**width else None


def unit_of(line):
    """(number, turnover, random number) of a line, or None."""
    fields = line.split(b",")
    if len(fields) != len(WIDTHS):
        return None
    numbers = tuple(map(field_of, fields, WIDTHS))
    return None if None in numbers else numbers


def units_of(text):
    """The units of all lines, or the offset of the first line that is not of the form."""
    units = []
    for offset, line in lines(bytes(text)):
        unit = unit_of(line)
        if unit is None:
            return BadLine(offset=offset)
        units.append(unit)
    return units


def line_number(text, offset):
    """The line that begins at an offset, from 1."""
    return bytes(text)[:offset].count(b"\n") + 1


def import_units(text, units):
    """The answer, and the list of unit records afterwards."""
    found = units_of(text)
    if isinstance(found, BadLine):
        return found, units
    if len(found) > len(units):
        return Refused(35), units
    return len(found), found + units[len(found) :]


def import_lists(text, numbers, turnovers, randoms):
    """The same into three lists, which hold as many units as the shortest has places."""
    lists = (numbers, turnovers, randoms)
    told, filled = import_units(text, [None] * min(map(len, lists)))
    if not isinstance(told, int):
        return told, *lists
    return told, *([unit[k] for unit in filled[:told]] + old[told:] for k, old in enumerate(lists))
