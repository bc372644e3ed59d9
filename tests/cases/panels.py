"""Cases of a renewal, without and with an outside share, and of whole chains through several panels."""

from . import cases, changed, faults_of, limits_of, outsides
from .chains import OPEN_FAULTS, RECORD_FAULTS, a_call, a_chain, a_small_call, an_opening, open_limits, record_limits, spoilt
from .years import some_years

# Renewal: a record, and what an opening brings but for its start index


def without(data, *names):
    """A case's data without some of its arguments."""
    return {name: value for name, value in data.items() if name not in names}


def a_renewal(rng):
    """An acceptable record, and an opening's lists of a length of their own."""
    return without(a_call(rng), "p") | without(an_opening(rng), "start")


def an_outside_renewal(rng):
    """The same with an outside share."""
    return without(a_call(rng), "p") | without(outsides.an_opening(rng), "start")


def no_weights_held(rng, data):
    """All weights of the record 0."""
    data["weights"][: data["units"]] = [0] * data["units"]


BROKEN = RECORD_FAULTS | {"no weights": no_weights_held}
RENEW_FAULTS = {19: BROKEN} | without(OPEN_FAULTS, 12)
RENEW_OUTSIDE_FAULTS = {19: BROKEN} | without(outsides.OUTSIDE_FAULTS, 12)

# Document 02's worked renewal: forty closes, and lists of two units
FORTY = {"units": 1, "weights": [2_000_000] + [0] * 99, "index": 10**9, "closes": 40, "links": 40}
TWO_UNITS = {"W": [1_000_000, 5_000_000], "g": [10_000] * 2, "a": [100_000] * 2}
NO_LISTS = {"W": [], "g": [], "a": []}


def renewed_limits(rng, opening, limits):
    """Each limit of the record from both sides, where 24 never comes, and the limits of the opening but for its start index."""
    for what, (_, first), (beyond, second) in record_limits(rng):
        if beyond == 19:
            yield what, (0, without(first, "p") | opening), (19, without(second, "p") | opening)
    record = without(a_small_call(rng), "p")
    for what, *sides in limits:
        if not what.startswith("start"):
            yield what, *((due, record | without(data, "start")) for due, data in sides)


def worked_renewals():
    """At forty links, with lists of another length; 19 before the opening's; C is never 12."""
    yield "forty links", (0, FORTY | TWO_UNITS), (9, FORTY | NO_LISTS)
    yield "19 before 9", (9, changed(FORTY, closes=3, links=3) | NO_LISTS), (19, changed(FORTY, closes=3, links=2) | NO_LISTS)
    yield "C within, never 12", (0, changed(FORTY, index=10**8) | TWO_UNITS), (19, changed(FORTY, index=10**8 - 1) | TWO_UNITS)


@cases
def renew_cases(rng, count):
    """Renewal: means to hit 19, 9, 10, 11, 13, 21 and 22; never 12 and never 24."""
    yield from limits_of(renewed_limits(rng, without(an_opening(rng, 3), "start"), open_limits(rng)))
    yield from limits_of(worked_renewals())
    yield from faults_of(rng, a_renewal, RENEW_FAULTS)
    for _ in range(count):
        yield 0, "random", a_renewal(rng)


@cases
def renew_outside_cases(rng, count):
    """Renewal with an outside share: means to hit 19, 9, 10, 11, 13, 29, 21 and 22; never 12 and never 24."""
    opening = without(outsides.an_opening(rng, 4), "start")
    yield from limits_of(renewed_limits(rng, opening, outsides.outside_limits()))
    yield 0, "forty links", FORTY | opening
    yield from faults_of(rng, an_outside_renewal, RENEW_OUTSIDE_FAULTS)
    for _ in range(count):
        yield 0, "random", an_outside_renewal(rng)


# Chains: quarters, closes, years and renewals from one opening

# Document 02's forty panels: each loses at its opening, and one close moves its two units far apart
LOSING_PANEL = {"W": [4_000_016, 322_586_129], "g": [10_000, 31], "a": [100_000, 99_999]}
FAR_APART = [25_000, 400_000]


def worked_panels():
    """Forty panels of one close each, which need the allowance of every panel; and a panel without a close, which has none."""
    forty = ([("close", FAR_APART), ("renew", LOSING_PANEL)] * 40)[:-1]
    yield "forty panels of one close", LOSING_PANEL | {"start": 10**9, "calls": forty}
    two = {"W": [2_000_000] * 2, "g": [10_000] * 2, "a": [100_000] * 2, "start": 10**9}
    one = {"g": [10_000], "a": [100_000]}
    calls = [("close", [110_000, 100_000]), ("renew", one | {"W": [3_000_000]}), ("renew", one | {"W": [4_000_000]}), ("quarter", [120_000])]
    yield "a panel without a close", two | {"calls": calls}


def a_part(rng):
    """An opening with or without an outside share and its calls, years among them."""
    part = outsides.a_chain(rng) if rng.random() < 0.3 else a_chain(rng)
    return some_years(rng, part) if rng.random() < 0.3 else part


def panels(rng):
    """A chain whose panel is renewed now and then, by renewals that are refused too."""
    first = a_part(rng)
    calls = []
    for part in [first] + [a_part(rng) for _ in range(rng.choice([1, 2, 5]))]:
        if part is not first:
            opening = without(part, "start", "calls")
            if rng.random() < 0.2:
                calls.append(("renew", changed(opening, a=spoilt(rng, opening["a"]))))
            calls.append(("renew", opening))
        calls += part["calls"][: rng.choice([0, 1, 4, 15, 45])]
    return first | {"calls": calls}


@cases
def panels_cases(rng, count):
    """Whole chains through several panels for demand 3: openings that are accepted; calls hit 9, 13, 21, 22, 23 and 24."""
    for what, data in worked_panels():
        yield 0, what, data
    for _ in range(count):
        yield 0, "random panels", panels(rng)
