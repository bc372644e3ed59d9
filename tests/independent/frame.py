"""Document 01: "Frame and weights", "Draw" and "Rotation"; document 02, [1], [2] and, with the sequential Poisson key, [8].

Lists are handed over as Python lists. An entry never changes a list it was
handed: buffers come back beside the answer as new lists.
"""

from dataclasses import dataclass
from fractions import Fraction

from . import Refused

MOST_UNITS = 16_384
MOST_TURNOVER = 10**12
HIGHEST_RANDOM = 999_999
CIRCLE = 1_000_000
MOST_PANEL = 100
WHOLE_FRACTION = 1_000
STEP = 1_000
LAST_STEP = 999
THOUSAND = 1_000


@dataclass(frozen=True)
class TakeAll:
    """The take-all group: q units, given by their places in the frame; n and X for the others."""

    q: int
    n: int
    X: int
    group: frozenset


@dataclass(frozen=True)
class Taken:
    """Answer of the take-all entry."""

    q: int
    n: int
    X: int


@dataclass(frozen=True)
class Drawn:
    """Answer of a draw."""

    n: int
    X: int


@dataclass(frozen=True)
class Rotated:
    """Answer of a rotation; `count` is the number of leavers."""

    k: int
    new_start: int
    count: int


# Take-all


def reaches(places, turnover, X):
    """ "(z - q) x turnover >= X" for one unit."""
    return places * turnover >= X


def by_falling_key(keys, places):
    """The places of a list by falling key, equal keys by lower place."""
    return sorted(places, key=lambda i: (-keys[i], i))


def search(turnovers, units, places):
    """The smallest q for which the test holds for at most q of these units; q, X and who the q largest are."""
    largest_first = by_falling_key(turnovers, units)
    for q in range(places):
        X = sum(turnovers[i] for i in largest_first[q:])
        count = sum(1 for i in largest_first if reaches(places - q, turnovers[i], X))
        if count <= q:
            return q, X, frozenset(largest_first[:q])
    # "If no q fits, q = z, n = 0 and X counts as 0 (cut-off)"; the sort above
    # puts equal turnovers by lower place, which is the lower unit number.
    return places, 0, frozenset(largest_first[:places])


def take_all(turnovers, z):
    """The base search: over the whole frame."""
    q, X, group = search(turnovers, range(len(turnovers)), z)
    return TakeAll(q, z - q, X, group)


# Firms at the border (document 02, [9])


def kept_units(numbers, turnovers, base, threshold, *lists):
    """Those of the sampled stratum that are kept: "At most n are kept, the largest first, equal turnovers by lower number." """
    listed = {number for numbers_of_one in lists for number in numbers_of_one}
    candidates = [
        i
        for i in range(len(turnovers))
        if i not in base.group and numbers[i] in listed and THOUSAND * base.n * turnovers[i] >= threshold * base.X
    ]
    return frozenset(by_falling_key(turnovers, candidates)[: base.n])


def enlarged(numbers, turnovers, z, threshold, first, second):
    """ "With these forced, the search goes on over the remaining units and places": the enlarged group."""
    base = take_all(turnovers, z)
    forced = base.group | kept_units(numbers, turnovers, base, threshold, first, second)
    remaining = [i for i in range(len(turnovers)) if i not in forced]
    places = z - len(forced)
    q, X, more = search(turnovers, remaining, places)
    return TakeAll(len(forced) + q, places - q, X, forced | more)


def previous_refusal(threshold, first, second):
    """30, or None."""
    if threshold == 0 or threshold > THOUSAND:
        return 30
    if any(len(one) > MOST_PANEL or not rising(one) for one in (first, second)):
        return 30
    return None


# Draw


def shifted(random, start):
    """ "r = R - s, plus 1,000,000 if R < s" (formula 21)."""
    r = random - start
    if random < start:
        r += CIRCLE
    return r


def pareto_key(r, turnover, n, X):
    """Formula 22 without the common factor n."""
    return Fraction(r * (X - n * turnover), (CIRCLE - r) * turnover)


def poisson_key(r, turnover, n, X):
    """Document 02, [8]: "Its key is r over turnover (section 4.2, method 2, without common factors)"."""
    return Fraction(r, turnover)


def order(its_key, number):
    """The n smallest keys are sampled; "equal keys go by lower unit number"."""
    return (its_key, number)


def sampled(numbers, turnovers, randoms, start, stratum, key):
    """Places of the n sampled units under a start; under cut-off there is none."""
    if stratum.n == 0:
        return frozenset()
    outside = []
    for i in range(len(numbers)):
        if i not in stratum.group:
            r = shifted(randoms[i], start)
            its_key = key(r, turnovers[i], stratum.n, stratum.X)
            outside.append((order(its_key, numbers[i]), i))
    outside.sort()
    return frozenset(i for _, i in outside[: stratum.n])


def base_weight(place, turnovers, stratum):
    """W (formula 9 times n): X if sampled, n x turnover if take-all, the turnover under cut-off."""
    if stratum.n == 0:
        return turnovers[place]
    if place in stratum.group:
        return stratum.n * turnovers[place]
    return stratum.X


def rising(numbers):
    """Strictly rising."""
    return all(before < after for before, after in zip(numbers, numbers[1:]))


def frame_refusal(numbers, turnovers, randoms, z, start):
    """The lowest of 1 to 5 that applies, or None."""
    units = len(numbers)
    if len(turnovers) != units or len(randoms) != units or units == 0 or units > MOST_UNITS:
        return 1
    if not rising(numbers):
        return 2
    if 0 in turnovers or sum(turnovers) > MOST_TURNOVER:
        return 3
    if any(random > HIGHEST_RANDOM for random in randoms) or start > HIGHEST_RANDOM:
        return 4
    if size_is_wrong(z, units):
        return 5
    return None


def size_is_wrong(z, units):
    """ "5 z is 0, over 100 or over the units." """
    return z == 0 or z > MOST_PANEL or z > units


def draw(numbers, turnovers, randoms, z, start, out_numbers, out_weights, key=pareto_key):
    """Answer, and both buffers as they are afterwards; the Pareto draw unless another key is given."""
    refusal = frame_refusal(numbers, turnovers, randoms, z, start)
    if refusal is None and (len(out_numbers) < z or len(out_weights) < z):
        refusal = 6
    if refusal is not None:
        return Refused(refusal), list(out_numbers), list(out_weights)
    stratum = take_all(turnovers, z)
    chosen = stratum.group | sampled(numbers, turnovers, randoms, start, stratum, key)
    # The frame rises, so places in rising order give unit numbers in rising order.
    places = sorted(chosen)
    panel = [numbers[i] for i in places]
    weights = [base_weight(i, turnovers, stratum) for i in places]
    answer = Drawn(stratum.n, stratum.X)
    return answer, panel + out_numbers[z:], weights + out_weights[z:]


def take_all_entry(turnovers, z, out_marks):
    """Take-all over turnovers alone: answer, and the marks (1 take-all, 0 other) afterwards."""
    units = len(turnovers)
    refusal = None
    if units == 0 or units > MOST_UNITS:
        refusal = 1
    elif 0 in turnovers or sum(turnovers) > MOST_TURNOVER:
        refusal = 3
    elif size_is_wrong(z, units):
        refusal = 5
    elif len(out_marks) < units:
        refusal = 6
    if refusal is not None:
        return Refused(refusal), list(out_marks)
    stratum = take_all(turnovers, z)
    marks = [1 if i in stratum.group else 0 for i in range(units)]
    return Taken(stratum.q, stratum.n, stratum.X), marks + out_marks[units:]


def take_all_units(numbers, turnovers, z, threshold, first, second, out_units):
    """The group as unit numbers, base (no lists) or enlarged: answer, and the buffer afterwards."""
    units = len(turnovers)
    refusal = None
    if len(numbers) != units or units == 0 or units > MOST_UNITS:
        refusal = 1
    elif not rising(numbers):
        refusal = 2
    elif 0 in turnovers or sum(turnovers) > MOST_TURNOVER:
        refusal = 3
    elif size_is_wrong(z, units):
        refusal = 5
    elif len(out_units) < z:
        refusal = 6
    else:
        refusal = previous_refusal(threshold, first, second)
    if refusal is not None:
        return Refused(refusal), list(out_units)
    stratum = enlarged(numbers, turnovers, z, threshold, first, second)
    group = sorted(numbers[i] for i in stratum.group)
    return Taken(stratum.q, stratum.n, stratum.X), group + out_units[len(group) :]


# Rotation


def required_leavers(f, members):
    """ "at least f x members / 1,000, rounded up" """
    share = Fraction(f * members, WHOLE_FRACTION)
    return -((-share.numerator) // share.denominator)


def rotation_refusal(numbers, old_panel, f, previous_n, previous_rest, births, out_leavers):
    """6 (for leavers), 7, 25 or 26, in this order, or None.

    Document 02, [2]: 6 "counts the lengths of both lists, old panel and births, added"; 25 and 26 "come after 7 and
    before 8".
    """
    if len(out_leavers) < len(old_panel) + len(births):
        return 6
    if f > WHOLE_FRACTION or len(old_panel) > MOST_PANEL or not rising(old_panel):
        return 7
    if previous_n > MOST_PANEL or previous_rest > MOST_TURNOVER or (previous_rest == 0 and previous_n != 0):
        return 25
    if len(births) > MOST_UNITS or not rising(births) or not set(births) <= set(numbers):
        return 26
    return None


def joins(random, turnover, old_start, previous_n, previous_rest):
    """ "r x X' < 1,000,000 x n' x its turnover, with r shifted by the old start" """
    return shifted(random, old_start) * previous_rest < 1_000_000 * previous_n * turnover


def members_of(numbers, turnovers, randoms, old_start, old_panel, previous_n, previous_rest, births, group):
    """Places of the members, each once: the old panel's units outside take-all, and the births outside it that join."""
    old, born = set(old_panel), set(births)
    members = []
    for i in range(len(numbers)):
        if i in group:
            continue
        if numbers[i] in old:
            members.append(i)
        elif numbers[i] in born and joins(randoms[i], turnovers[i], old_start, previous_n, previous_rest):
            members.append(i)
    return members


def rotate(
    numbers, turnovers, randoms, z, old_start, old_panel, f, previous_n, previous_rest, births, out_leavers, key=pareto_key
):
    """Answer, and the leavers' buffer as it is afterwards.

    Document 02, [1]: "Write leavers by falling turnover in the new frame, equal turnovers by lower unit number."
    [2]: "new enterprises join the old panel before it rotates"; previous_n is n', previous_rest X'.
    """
    refusal = frame_refusal(numbers, turnovers, randoms, z, old_start)
    if refusal is None:
        refusal = rotation_refusal(numbers, old_panel, f, previous_n, previous_rest, births, out_leavers)
    if refusal is not None:
        return Refused(refusal), list(out_leavers)
    stratum = take_all(turnovers, z)
    members = members_of(
        numbers, turnovers, randoms, old_start, old_panel, previous_n, previous_rest, births, stratum.group
    )
    required = required_leavers(f, len(members))
    for k in range(LAST_STEP + 1):
        start = (old_start + STEP * k) % CIRCLE
        stay = sampled(numbers, turnovers, randoms, start, stratum, key)
        leavers = [i for i in members if i not in stay]
        if len(leavers) >= required:
            phoned = [numbers[i] for i in by_falling_key(turnovers, leavers)]
            return Rotated(k, start, len(leavers)), phoned + out_leavers[len(leavers):]
    return Refused(8), list(out_leavers)
