"""Document 02, [10]: the sample shared over sectors."""

from fractions import Fraction
from typing import NamedTuple

from . import Refused

PLACES = 64
MOST_INTERVIEWS = 6_400
MOST_STRENGTH = 10**9


class Shared(NamedTuple):
    """Three lists of 64 places."""

    counts: list
    wholes: list
    remainders: list


def refused(interviews, strengths, minima):
    """31: the lists, a strength, T, or minima that exceed T together."""
    return (
        len(strengths) != len(minima)
        or not 1 <= len(strengths) <= PLACES
        or any(not 1 <= strength <= MOST_STRENGTH for strength in strengths)
        or interviews > MOST_INTERVIEWS
        or sum(minima) > interviews
    )


def passes(interviews, strengths, minima):
    """T' and the sectors that stay, after the pass in which none leaves."""
    rest, staying = interviews, list(range(len(strengths)))
    while True:
        total = sum(strengths[i] for i in staying)
        low = [i for i in staying if Fraction(rest * strengths[i], total) < minima[i]]
        if not low:
            return rest, staying
        rest -= sum(minima[i] for i in low)
        staying = [i for i in staying if i not in low]


def share(interviews, strengths, minima):
    """The counts, each quota's whole part and its division's remainder, or the refusal."""
    if refused(interviews, strengths, minima):
        return Refused(31)
    rest, staying = passes(interviews, strengths, minima)
    total = sum(strengths[i] for i in staying)
    counts = list(minima) + [0] * (PLACES - len(minima))
    wholes, remainders = [0] * PLACES, [0] * PLACES
    for i in staying:
        wholes[i], remainders[i] = divmod(rest * strengths[i], total)
        counts[i] = wholes[i]
    by_remainder = sorted(staying, key=lambda i: (-remainders[i], i))
    for i in by_remainder[: rest - sum(wholes)]:
        counts[i] += 1
    return Shared(counts, wholes, remainders)
