"""Cases of a year in one call (document 02, [6]), and chains with years among their calls."""

from . import U64, cases, changed, junk, limits_of
from .chains import CLOSE_FAULTS, QUARTER_FAULTS, a_call, a_chain, call_limits, closing_limits, moves, record_limits, spoilt

LISTS = ("first", "second", "third", "last")


def as_year(rng, call, place, room=None):
    """A quarter's or close's case as the call at this place of a year; the others move nothing."""
    data = {name: call[name] for name in ("units", "weights", "index", "closes", "links")}
    still = [100_000 if weight else 0 for weight in call["weights"][: call["units"]]]
    for name in LISTS:
        data[name] = list(still)
    data[LISTS[place]] = list(call["p"])
    data["figures"] = junk(rng, rng.choice([4, 5, 9]) if room is None else room, U64)
    return data


def faults_at(place):
    """What a call at this place can be refused by; 19 and 24 look at the record alone, and so meet the first call."""
    faults = CLOSE_FAULTS if place == 3 else QUARTER_FAULTS
    return {number: ways for number, ways in faults.items() if place == 0 or number not in (19, 24)}


def spoilt_call(rng, number, place):
    """A call with this fault."""
    what, spoil = rng.choice(list(faults_at(place)[number].items()))
    call = a_call(rng)
    spoil(rng, call)
    return what, call


def a_year(rng):
    """A year whose figures stay in range."""
    call = a_call(rng)
    data = as_year(rng, call, 3)
    for name in LISTS:
        data[name] = [rng.randrange(60_000, 180_001) if p else 0 for p in data[name]]
    return data


def year_limits(rng):
    """Both sides of 28, and of each limit of a call at each place of a year."""
    base = as_year(rng, a_call(rng), 0, room=4)
    yield "four places", (0, base), (28, changed(base, figures=base["figures"][:3]))
    for place in range(4):
        limits = call_limits(rng)
        if place == 0:
            limits += record_limits(rng)
        if place == 3:
            limits += [limit for limit in closing_limits(rng) if limit[1][1]["links"] != 40]
        for what, (within, inside), (beyond, outside) in limits:
            yield f"call {place + 1}, {what}", (within, as_year(rng, inside, place)), (beyond, as_year(rng, outside, place))


def worked_years():
    """The cases of document 02's reading: one unit with v of 2,000,000."""

    def one(index, relatives, room=4, weight=2_000_000, closes=0, links=0):
        data = {"units": 1, "weights": [weight] + [0] * 99, "index": index, "closes": closes, "links": max(closes, links), "figures": [7] * room}
        return data | dict(zip(LISTS, relatives))

    yield 13, "figures stay after a refusal", one(10**9, [[101_000], [102_000], [24_999], [104_000]])
    yield 9, "the second list is too long", one(10**9, [[101_000], [102_000] * 2, [103_000], [104_000]])
    yield 28, "28 before 19", one(10**9, [[100_000]] * 4, room=3, weight=0)
    yield 19, "no record", one(10**9, [[100_000]] * 4, weight=0)
    yield 23, "the close would be accepted", one(9 * 10**9, [[101_000], [102_000], [120_000], [103_000]])
    yield 21, "the close refused", one(10**9, [[101_000], [102_000], [103_000], [49_999]])
    yield 0, "the fortieth close", one(10**9, [[100_000]] * 3 + [[110_000]], closes=39)
    yield 24, "after forty closes", one(10**9, [[100_000]] * 4, closes=40)
    yield 13, "13 before 24", one(10**9, [[1]] + [[100_000]] * 3, closes=40)
    yield 0, "the fortieth link, the first close of its panel", one(10**9, [[100_000]] * 3 + [[110_000]], links=39)
    yield 24, "after forty links, no close of this panel", one(10**9, [[100_000]] * 4, links=40)


def two_faults(rng):
    """A fault at one place and another at a later one: the earlier call stops the year; 28 comes before each."""
    for place in range(4):
        for number in faults_at(place):
            what, call = spoilt_call(rng, number, place)
            yield 28, f"three places; also {number}: {what}", as_year(rng, call, place, room=rng.randrange(4))
            data = as_year(rng, call, place)
            for later in LISTS[place + 1 :]:
                data[later] = rng.choice([[], [1], data[later] + [0]])
            yield number, f"call {place + 1}: {what}; the later lists too", data


@cases
def year_cases(rng, count):
    """A year: means to hit 28, and 9, 13, 19, 21, 22, 23 and 24 at each place that has them."""
    yield from worked_years()
    yield from limits_of(year_limits(rng))
    for place in range(4):
        for number, ways in faults_at(place).items():
            for what, spoil in ways.items():
                call = a_call(rng)
                spoil(rng, call)
                yield number, f"call {place + 1}: {what}", as_year(rng, call, place)
    yield from two_faults(rng)
    for _ in range(count):
        yield 0, "random", a_year(rng)


# Chains with years: ("year", the relatives of its four calls) beside quarters and closes


def some_years(rng, data):
    """Some closes of a chain become years, a few of them with a list that is refused."""
    calls = []
    for kind, p in data["calls"]:
        if kind == "close" and rng.random() < 0.4:
            lists = [moves(rng, data["g"], 70_000, 140_000) for _ in range(3)] + [p]
            if rng.random() < 0.2:
                place = rng.randrange(4)
                lists[place] = spoilt(rng, lists[place])
            calls.append(("year", lists))
        else:
            calls.append((kind, p))
    return changed(data, calls=calls)


@cases
def year_chain_cases(rng, count):
    """Whole chains with years among the calls: openings that are accepted; calls hit 9, 13, 21, 22, 23 and 24."""
    for _ in range(count):
        yield 0, "random chain with years", some_years(rng, a_chain(rng))
