"""Document 01: "Chain record" with demand 3, and "Total"; relatives in hundred-thousandths (document 02, [5])."""

from dataclasses import dataclass
from fractions import Fraction

from . import Refused

PLACES = 100
SCALE = 100_000
LOWEST_RELATIVE = 25_000
HIGHEST_RELATIVE = 400_000
WHOLE_SHARE = 10_000
LEAST_WEIGHT = 1_000_000
MOST_WEIGHT = 10**13
LOWEST_INDEX = 10**8
HIGHEST_INDEX = 10**10
MOST_CLOSES = 40
MOST_LINKS = 40
MOST_SECTORS = 64
WHOLE_SECTOR_SHARE = 1_000_000


@dataclass(frozen=True)
class Record:
    """A chain record as any caller may hand it in: `units` need not be 1 to 100. `links` are the accepted closes of all panels."""

    units: int
    weights: list
    index: int
    closes: int
    links: int


@dataclass(frozen=True)
class Figure:
    """The answer F of a quarter or close."""

    F: int


@dataclass(frozen=True)
class Total:
    """The answer of the total over sectors."""

    total: int


def outside_index_range(index):
    """12's range, used by 12, 14, 19 and 23."""
    return index < LOWEST_INDEX or index > HIGHEST_INDEX


def relative_is_wrong(relative, present):
    """ "An absent unit's relative is 0, and only its is." """
    if not present:
        return relative != 0
    return relative < LOWEST_RELATIVE or relative > HIGHEST_RELATIVE


# Open


def domain_weight(W, g):
    """ "u = floor(W x g / 10,000)" """
    return W * g // WHOLE_SHARE


def updated_weight(weight, relative):
    """v = floor(u x a / 100,000) at the open, floor(v x p / 100,000) at a close."""
    return weight * relative // SCALE


def opening_weight(W, g, a):
    """v of one unit; "an absent unit has v = 0 always"."""
    if g == 0:
        return 0
    return updated_weight(domain_weight(W, g), a)


def too_light(W, g, a):
    """21 at the open: "a present u or v below 1,000,000"."""
    if g == 0:
        return False
    return domain_weight(W, g) < LEAST_WEIGHT or opening_weight(W, g, a) < LEAST_WEIGHT


def open_refusal(W, g, a, start):
    """The lowest of 9, 10, 11, 12, 13, 21 and 22 that applies, or None."""
    units = len(W)
    if units == 0 or units > PLACES or len(g) != units or len(a) != units:
        return 9
    if 0 in W or sum(W) > MOST_WEIGHT:
        return 10
    if any(share > WHOLE_SHARE for share in g) or all(share == 0 for share in g):
        return 11
    if outside_index_range(start):
        return 12
    if any(relative_is_wrong(a[i], g[i] != 0) for i in range(units)):
        return 13
    if any(too_light(W[i], g[i], a[i]) for i in range(units)):
        return 21
    if sum(opening_weight(W[i], g[i], a[i]) for i in range(units)) > MOST_WEIGHT:
        return 22
    return None


def open_chain(W, g, a, start):
    """A new record, its places beyond `units` 0, or a refusal."""
    refusal = open_refusal(W, g, a, start)
    if refusal is not None:
        return Refused(refusal)
    weights = [opening_weight(W[i], g[i], a[i]) for i in range(len(W))]
    return Record(len(W), weights + [0] * (PLACES - len(W)), start, 0, 0)


# Quarter and close


def breaks_a_limit(record):
    """19 for a record handed in, "before all else"."""
    if record.units == 0 or record.units > PLACES:
        return True
    weights = record.weights[: record.units]
    return (
        record.closes > MOST_CLOSES
        or record.links > MOST_LINKS
        or record.links < record.closes
        or outside_index_range(record.index)
        or any(v != 0 and v < LEAST_WEIGHT for v in weights)
        or all(v == 0 for v in weights)
        or sum(weights) > MOST_WEIGHT
    )


def figure(record, p):
    """F from L, with the two floors where the document has them."""
    weights = record.weights[: record.units]
    V = sum(weights)
    N = sum(weights[i] * p[i] for i in range(record.units))
    L = N * 1_000 // V
    return record.index * L // 100_000_000


def call_refusal(record, p, closing):
    """19 first, then the lowest of 9, 13, (21, 22 at a close), 23 and 24, or None."""
    if breaks_a_limit(record):
        return 19
    if len(p) == 0 or len(p) > PLACES or len(p) != record.units:
        return 9
    weights = record.weights[: record.units]
    if any(relative_is_wrong(p[i], weights[i] != 0) for i in range(record.units)):
        return 13
    if closing:
        present = [i for i in range(record.units) if weights[i] != 0]
        new = [updated_weight(weights[i], p[i]) for i in present]
        if any(v < LEAST_WEIGHT for v in new):
            return 21
        if sum(new) > MOST_WEIGHT:
            return 22
    if outside_index_range(figure(record, p)):
        return 23
    if record.links >= MOST_LINKS:
        return 24
    return None


def quarter(record, p):
    """The record as it came, and F or a refusal."""
    refusal = call_refusal(record, p, closing=False)
    if refusal is not None:
        return record, Refused(refusal)
    return record, Figure(figure(record, p))


def close(record, p):
    """The next record and F, or the record as it came and a refusal."""
    refusal = call_refusal(record, p, closing=True)
    if refusal is not None:
        return record, Refused(refusal)
    F = figure(record, p)
    # Places beyond `units` are no part of the list: they stay as they were.
    new = [updated_weight(record.weights[i], p[i]) for i in range(record.units)]
    weights = new + record.weights[record.units:]
    return Record(record.units, weights, F, record.closes + 1, record.links + 1), Figure(F)


# A year in one call (document 02, [6])


@dataclass(frozen=True)
class Year:
    """A year that was not refused: its calls, all four."""

    count: int


@dataclass(frozen=True)
class Stopped(Refused):
    """ "At a refusal it stops with that number and the count of calls accepted." """

    count: int


def year(record, first, second, third, last, figures):
    """The record and the buffer of figures after it, and how far it came."""
    if len(figures) < 4:
        return record, list(figures), Stopped(28, 0)
    held, buffer, count = record, list(figures), 0
    for call, p in ((quarter, first), (quarter, second), (quarter, third), (close, last)):
        held, answer = call(held, p)
        if isinstance(answer, Refused):
            return record, buffer, Stopped(answer.number, count)
        buffer[count] = answer.F
        count += 1
    return held, buffer, Year(count)


# Demand 3: the exact side


class Direct:
    """e, E and m, reckoned from the open's arguments and the accepted calls, never from a record."""

    def __init__(self, W, g, a, start):
        self.start = Fraction(start)
        self.e = [Fraction(W[i] * g[i] * a[i], 1_000_000_000) for i in range(len(W))]
        self.E = sum(self.e)
        self.m = 1

    def D(self, p):
        """D of a call that is not refused."""
        moved = sum(self.e[i] * Fraction(p[i], SCALE) for i in range(len(p)))
        return self.start * moved / self.E

    def closed(self, p):
        """After a close that is not refused: e moves without rounding, m grows by one."""
        self.e = [self.e[i] * Fraction(p[i], SCALE) for i in range(len(p))]
        self.m += 1

    def allowed(self):
        """What the bound multiplies: m + 1."""
        return self.m + 1


def within_bound(F, D, allowed):
    """10,000,000 x |F - D| <= 11 x allowed x D, both sides multiplied by D's denominator."""
    D = Fraction(D)
    distance = abs(F * D.denominator - D.numerator)
    return 10_000_000 * distance <= 11 * allowed * D.numerator


# Total


def total(shares, indices):
    """ "Total = floor(sum of share x index / 1,000,000)" (formula 11), or 14."""
    sectors = len(shares)
    if (
        len(indices) != sectors
        or sectors == 0
        or sectors > MOST_SECTORS
        or sum(shares) != WHOLE_SECTOR_SHARE
        or any(outside_index_range(index) for index in indices)
    ):
        return Refused(14)
    return Total(sum(shares[i] * indices[i] for i in range(sectors)) // WHOLE_SECTOR_SHARE)
