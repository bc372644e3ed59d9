"""Document 02, [12]: the quarterly sheet."""

from typing import NamedTuple

from . import Refused

LINE = 49


class Change(NamedTuple):
    """Hundredths of a percent against the year before, and the rest of the division."""

    c: int
    rest: int


def change(new, old):
    """(new − old) × 10,000 = c × old + rest and 0 ≤ rest < old; Python floors a signed division."""
    return Change(*divmod((new - old) * 10_000, old))


def with_decimals(number, decimals):
    """A whole number of units of the last decimal, the sign once and in front."""
    digits = str(abs(number)).rjust(decimals + 1, "0")
    return ("-" if number < 0 else "") + digits[:-decimals] + "." + digits[-decimals:]


def line(name, new, old):
    """48 columns and a line feed."""
    text = name.decode("ascii").ljust(20) + with_decimals(new, 7).rjust(14) + with_decimals(change(new, old).c, 2).rjust(14) + "\n"
    return text.encode("ascii")


def is_name(name):
    return 1 <= len(name) <= 20 and all(32 <= octet <= 126 for octet in name)


def sheet(name, new, old, out):
    """The answer, and the buffer afterwards."""
    if not is_name(name) or not all(10**8 <= figure <= 10**10 for figure in (new, old)) or len(out) < LINE:
        return Refused(32), out
    return change(new, old), line(name, new, old) + out[LINE:]
