"""Cases of open, quarter, close, whole chains, and the total over sectors."""

from . import (
    HALF,
    U32,
    U64,
    cases,
    changed,
    drop_last,
    faults_of,
    junk,
    limits_of,
    put,
    put_somewhere,
    replaced,
)

# Open


def an_opening(rng, units=None):
    """Arguments of an acceptable open: the last unit absent, the first two present."""
    units = units or rng.choice([3, 4, 7, 24, 100])
    shares = [rng.choice([10_000, 10_000, rng.randrange(10, 10_001), 0]) for _ in range(units)]
    shares[0], shares[1], shares[-1] = 10_000, rng.randrange(10, 10_001), 0
    return {
        "W": [rng.randrange(10**10, 10**11 // 4) for _ in range(units)],
        "g": shares,
        "a": [rng.choice([25_000, 100_000, 400_000, rng.randrange(25_000, 400_001)]) if g else 0 for g in shares],
        "start": rng.choice([10**8, 10**9, 10**10, rng.randrange(10**8, 10**10)]),
    }


def set_first(name, value):
    """A fault at the first unit, which is present."""
    return lambda rng, data: data[name].__setitem__(0, value)


def set_last(name, value):
    """A fault at the last unit, which is absent."""
    return lambda rng, data: data[name].__setitem__(-1, value)


def all_absent(rng, data):
    """Every share 0, and the relatives to match."""
    data["g"] = [0] * len(data["g"])
    data["a"] = [0] * len(data["a"])


def hundred_and_one(rng, data):
    """101 units in each list, each good."""
    data.update(W=[10**9] * 101, g=[10_000] * 101, a=[100_000] * 101)


def light(W, g, a):
    """A fault: the second unit has these arguments, and too light a weight."""

    def spoil(rng, data):
        data["W"][1], data["g"][1], data["a"][1] = W, g, a

    return spoil


def weights_over(rng, data):
    """W within 10's limit, the sum of v over 22's by the other units' share of it."""
    data["W"][0] = 5 * 10**12
    data["a"][0] = 200_000


def weights_wrap(rng, data):
    """W that wrap to a small sum in 64 bits."""
    data["W"][0] = HALF
    data["W"][-1] = HALF


OPEN_FAULTS = {
    9: {
        "no units": lambda rng, data: data.update(W=[], g=[], a=[]),
        "a weight missing": drop_last("W"),
        "a share missing": drop_last("g"),
        "a relative missing": drop_last("a"),
        "101 units": hundred_and_one,
    },
    10: {
        "W of 0, present": set_first("W", 0),
        "W of 0, absent": set_last("W", 0),
        "W of 2^64 - 1": set_last("W", U64),
        "W that wrap": weights_wrap,
        "sum 10^13 + 1": lambda rng, data: data["W"].__setitem__(-1, 10**13 + 1 - sum(data["W"][:-1])),
    },
    11: {
        "a share of 10,001": set_first("g", 10_001),
        "a share of 2^32 - 1": set_first("g", U32),
        "all absent": all_absent,
    },
    12: {
        "start 0": put("start", 0),
        "start 10^8 - 1": put("start", 10**8 - 1),
        "start 10^10 + 1": put("start", 10**10 + 1),
        "start 2^64 - 1": put("start", U64),
    },
    13: {
        "relative 24,999": set_first("a", 24_999),
        "relative 400,001": set_first("a", 400_001),
        "a relative in ten-thousandths": set_first("a", 10_000),
        "relative 2^32 - 1": set_first("a", U32),
        "relative 0, present": set_first("a", 0),
        "relative 1, absent": set_last("a", 1),
        "relative 100,000, absent": set_last("a", 100_000),
    },
    21: {
        "W of 1": light(1, 10_000, 100_000),
        "u of 999,999 alone": light(999_999, 10_000, 400_000),
        "v of 999,999 alone": light(1_999_999, 10_000, 50_000),
        "u light by its share": light(10**10 - 1, 1, 400_000),
        "v light by its share": light(10**10, 1, 99_999),
    },
    22: {"sum of v over 10^13": weights_over},
}


def open_limits(rng):
    """Both sides of each limit of the open."""
    base = {"W": [10**9] * 3, "g": [10_000, 5_000, 0], "a": [100_000, 100_000, 0], "start": 10**9}
    hundred = changed(base, W=[10**9] * 100, g=[10_000] * 100, a=[100_000] * 100)
    more = changed(base)
    hundred_and_one(rng, more)
    one = changed(base, W=[10**9], g=[10_000], a=[100_000])
    alone = changed(base, g=[1, 0, 0], a=[100_000, 0, 0], W=[10**10, 1, 1])
    full_up = changed(base, W=[10**9, 10**9, 10**13 - 2 * 10**9])
    tight = changed(base, W=[(10**13 - 10**6) // 2, 10**6, 1], g=[10_000, 10_000, 0], a=[200_000, 100_000, 0])

    two_floors = changed(base, W=[1_199_126], g=[9_189], a=[108_387])  # v is 1,194,290; one floor over 10^9 gives 1,194,291
    heavy = changed(base, W=[10**13], g=[10_000], a=[100_000])

    def second(**changes):
        return changed(base, **{name: replaced(base[name], 1, value) for name, value in changes.items()})

    def third(**changes):
        return changed(base, **{name: replaced(base[name], 2, value) for name, value in changes.items()})

    return [
        ("units 1", (0, one), (9, changed(base, W=[], g=[], a=[]))),
        ("units 100", (0, hundred), (9, more)),
        ("W of 1, absent", (0, third(W=1)), (10, third(W=0))),
        ("sum of W 10^13", (0, full_up), (10, changed(full_up, W=replaced(full_up["W"], 2, 10**13 - 2 * 10**9 + 1)))),
        ("share 10,000", (0, second(g=10_000)), (11, second(g=10_001))),
        ("one unit present", (0, alone), (11, changed(alone, g=[0] * 3, a=[0] * 3))),
        ("start 10^8", (0, changed(base, start=10**8)), (12, changed(base, start=10**8 - 1))),
        ("start 10^10", (0, changed(base, start=10**10)), (12, changed(base, start=10**10 + 1))),
        ("relative 25,000", (0, second(a=25_000)), (13, second(a=24_999))),
        ("relative 400,000", (0, second(a=400_000)), (13, second(a=400_001))),
        ("absent 0", (0, third(a=0)), (13, third(a=1))),
        ("absent at 25,000", (0, third(a=0)), (13, third(a=25_000))),
        ("u of 1,000,000", (0, second(W=2_000_000, a=200_000)), (21, second(W=1_999_999, a=200_000))),
        ("v of 1,000,000", (0, second(W=8_000_000, a=25_000)), (21, second(W=7_999_998, a=25_000))),
        ("two floors", (0, two_floors), (13, changed(two_floors, a=[10_838]))),
        ("one W of 10^13", (0, heavy), (10, changed(heavy, W=[10**13 + 1]))),
        ("one v of 10^13", (0, heavy), (22, changed(heavy, a=[100_001]))),
        ("sum of v 10^13", (0, tight), (22, changed(tight, W=replaced(tight["W"], 1, 10**6 + 1)))),
    ]


@cases
def open_cases(rng, count):
    """Open: means to hit 9, 10, 11, 12, 13, 21 and 22."""
    yield from limits_of(open_limits(rng))
    yield from faults_of(rng, an_opening, OPEN_FAULTS)
    for _ in range(count):
        yield 0, "random", an_opening(rng)


# Quarter and close


def a_call(rng):
    """An acceptable record and relatives: first two units present, last absent, junk beyond."""
    units = rng.choice([3, 4, 9, 30, 99, 100])
    weights = [rng.choice([0, rng.randrange(10**7, 4 * 10**10)]) for _ in range(units)]
    weights[0], weights[1], weights[-1] = 10**9, 10**8, 0
    closes = rng.choice([0, 1, 39, rng.randrange(40)])
    return {
        "units": units,
        "weights": weights + junk(rng, 100 - units, U64),
        "index": rng.randrange(4 * 10**8, 10**9),
        "closes": closes,
        "links": rng.choice([closes, 39, rng.randrange(closes, 40)]),
        "p": [rng.randrange(50_000, 200_001) if weight else 0 for weight in weights],
    }


def only_weights(data, weights):
    """Put these weights in the first places of the record, its length with them."""
    data["units"] = len(weights)
    data["weights"] = weights + data["weights"][len(weights) :]


def sum_of_weights(total):
    """A fault: the record's weights add to this, in its own number of units."""

    def spoil(rng, data):
        others = sum(data["weights"][1 : data["units"]])
        data["weights"][0] = total - others

    return spoil


def record_wraps(rng, data):
    """Weights that wrap to a small sum in 64 bits."""
    data["weights"][0] = HALF
    data["weights"][1] = HALF


def no_weights(rng, data):
    """All weights 0, with relatives to match."""
    data["weights"][: data["units"]] = [0] * data["units"]
    data["p"] = [0] * len(data["p"])


def index_leaves(index, relative):
    """A fault: F goes out of range, every present unit having this relative."""

    def spoil(rng, data):
        data["index"] = index
        data["p"] = [relative if p else 0 for p in data["p"]]

    return spoil


def second_unit(weight, relative):
    """A fault at the second unit, which is present."""

    def spoil(rng, data):
        data["weights"][1] = weight
        data["p"][1] = relative

    return spoil


def close_swells(rng, data):
    """The new weights add to more than 10^13, the old ones do not."""
    data["weights"][0] = 5 * 10**12
    data["p"][0] = 200_001
    data["index"] = 10**9


RECORD_FAULTS = {
    "length 0": put("units", 0),
    "length 101": put("units", 101),
    "length 2^32 - 1": put("units", U32),
    "41 closes, 41 links": lambda rng, data: data.update(closes=41, links=41),
    "41 closes, 40 links": lambda rng, data: data.update(closes=41, links=40),
    "2^64 - 1 closes": put("closes", U64),
    "41 links": put("links", 41),
    "2^64 - 1 links": put("links", U64),
    "fewer links than closes": lambda rng, data: data.update(closes=3, links=2),
    "index 0": put("index", 0),
    "index 10^8 - 1": put("index", 10**8 - 1),
    "index 10^10 + 1": put("index", 10**10 + 1),
    "index 2^64 - 1": put("index", U64),
    "a weight of 1": set_first("weights", 1),
    "a weight of 999,999": set_first("weights", 999_999),
    "no weights": no_weights,
    "weights add to 10^13 + 1": sum_of_weights(10**13 + 1),
    "weights that wrap": record_wraps,
}

QUARTER_FAULTS = {
    19: RECORD_FAULTS,
    9: {
        "no relatives": put("p", []),
        "a relative missing": drop_last("p"),
        "a relative more": lambda rng, data: data["p"].append(0),
        "101 relatives": put("p", [100_000] * 101),
    },
    13: {
        "relative 24,999": set_first("p", 24_999),
        "relative 400,001": set_first("p", 400_001),
        "a relative in ten-thousandths": set_first("p", 10_000),
        "relative 2^32 - 1": set_first("p", U32),
        "relative 0, present": set_first("p", 0),
        "relative 1, absent": set_last("p", 1),
        "relative 100,000, absent": set_last("p", 100_000),
    },
    23: {
        "F over 10^10": index_leaves(10**10, 100_001),
        "F far over": index_leaves(10**10, 400_000),
        "F below 10^8": index_leaves(10**8, 99_999),
        "F far below": index_leaves(10**8, 25_000),
    },
    24: {
        "forty closes": lambda rng, data: data.update(closes=40, links=40),
        "forty links, no close": lambda rng, data: data.update(closes=0, links=40),
    },
}

CLOSING_FAULTS = {
    21: {
        "new weight 999,999": second_unit(3_999_999, 25_000),
        "new weight 999,990": second_unit(1_000_000, 99_999),
    },
    22: {"new weights over 10^13": close_swells},
}

CLOSE_FAULTS = {
    number: (QUARTER_FAULTS | CLOSING_FAULTS)[number] for number in (19, 9, 13, 21, 22, 23, 24)
}


def a_small_call(rng):
    """The call that the limits start from: weights 10^9, 10^8 and absent; junk beyond."""
    weights = [10**9, 10**8, 0] + junk(rng, 97, U64)
    return {"units": 3, "weights": weights, "index": 10**9, "closes": 3, "links": 5, "p": [100_000, 100_000, 0]}


def weighing(data, weights, p, **changes):
    """The same call with other weights and relatives."""
    copy = changed(data, p=p, **changes)
    only_weights(copy, weights)
    return copy


def record_limits(rng):
    """Both sides of each limit of 19. Inside forty links 24 is due, beyond them 19."""
    base = a_small_call(rng)
    hundred = weighing(base, [10**7] * 100, [100_000] * 100)
    full_up = [10**13 - 10**8, 10**8, 0]
    return [
        ("length 1", (0, weighing(base, [10**7], [100_000])), (19, changed(base, units=0))),
        ("length 100", (0, hundred), (19, changed(hundred, units=101))),
        ("39 and 40 closes", (0, changed(base, closes=39, links=39)), (24, changed(base, closes=40, links=40))),
        ("40 and 41 closes", (24, changed(base, closes=40, links=40)), (19, changed(base, closes=41, links=41))),
        ("39 and 40 links", (0, changed(base, links=39)), (24, changed(base, links=40))),
        ("40 and 41 links", (24, changed(base, links=40)), (19, changed(base, links=41))),
        ("links as closes", (0, changed(base, closes=3, links=3)), (19, changed(base, closes=3, links=2))),
        ("index 10^8", (0, changed(base, index=10**8)), (19, changed(base, index=10**8 - 1))),
        ("index 10^10", (0, changed(base, index=10**10)), (19, changed(base, index=10**10 + 1))),
        ("v of 1,000,000", (0, weighing(base, [10**6], [100_000])), (19, weighing(base, [999_999], [100_000]))),
        ("v of 0", (0, weighing(base, [10**7, 0], [100_000, 0])), (19, weighing(base, [10**7, 1], [100_000, 100_000]))),
        ("one present", (0, weighing(base, [0, 10**6], [0, 100_000])), (19, weighing(base, [0, 0], [0, 0]))),
        (
            "v add to 10^13",
            (0, weighing(base, full_up, base["p"])),
            (19, weighing(base, [full_up[0] + 1, 10**8, 0], base["p"])),
        ),
    ]


def call_limits(rng):
    """Both sides of each limit of 9, 13 and 23, quarter and close alike."""
    base = a_small_call(rng)
    return [
        ("relatives as units", (0, base), (9, changed(base, p=[100_000, 100_000]))),
        ("no relative more", (0, base), (9, changed(base, p=[100_000, 100_000, 0, 0]))),
        ("relative 25,000", (0, changed(base, p=[100_000, 25_000, 0])), (13, changed(base, p=[100_000, 24_999, 0]))),
        ("relative 400,000", (0, changed(base, p=[100_000, 400_000, 0])), (13, changed(base, p=[100_000, 400_001, 0]))),
        ("absent 0", (0, base), (13, changed(base, p=[100_000, 100_000, 1]))),
        # L floored before × 1,000 would lose three digits
        ("three digits of L", (0, weighing(base, [1_000_000, 2_000_000], [100_001, 100_000])), (13, weighing(base, [10**7], [10_000]))),
        (
            "F of 10^10",
            (0, changed(base, index=10**10)),
            (23, changed(base, index=9_900_990_100, p=[101_000, 101_000, 0])),
        ),
        (
            "F of 10^8",
            (0, changed(base, index=10**8)),
            (23, changed(base, index=101_010_100, p=[99_000, 99_000, 0])),
        ),
    ]


def closing_limits(rng):
    """Both sides of 21 and 22 at a close."""
    base = a_small_call(rng)
    half = (10**13 - 10**6) // 2
    return [
        (
            "new v of 1,000,000",
            (0, weighing(base, [10**9, 4_000_000], [100_000, 25_000])),
            (21, weighing(base, [10**9, 3_999_999], [100_000, 25_000])),
        ),
        (
            "new v add to 10^13",
            (0, weighing(base, [half, 10**6], [200_000, 100_000])),
            (22, weighing(base, [half, 10**6 + 1], [200_000, 100_000])),
        ),
        (
            "21 before 24",
            (24, weighing(base, [10**9, 4_000_000], [100_000, 25_000], links=40)),
            (21, weighing(base, [10**9, 3_999_999], [100_000, 25_000], links=40)),
        ),
    ]


@cases
def quarter_cases(rng, count):
    """Quarter: means to hit 19, 9, 13, 23 and 24; what 21 and 22 mean at a close is accepted."""
    yield from limits_of(record_limits(rng) + call_limits(rng))
    yield 0, "N x 1,000 over 2^64", weighing(a_small_call(rng), [9_999_999_000_000, 1_000_000], [399_999, 25_000])
    for _, what, data in limits_of(closing_limits(rng)):
        yield 24 if data["links"] == 40 else 0, f"a quarter where {what} at a close", data
    yield from faults_of(rng, a_call, QUARTER_FAULTS)
    for _ in range(count):
        yield 0, "random", a_call(rng)


@cases
def close_cases(rng, count):
    """Close: means to hit 19, 9, 13, 21, 22, 23 and 24."""
    yield from limits_of(record_limits(rng) + call_limits(rng) + closing_limits(rng))
    yield from faults_of(rng, a_call, CLOSE_FAULTS)
    for _ in range(count):
        yield 0, "random", a_call(rng)


# Chains: one open and a list of calls


def present_units(rng):
    """Shares of a short panel, at least one unit present."""
    shares = [rng.choice([10_000, 10_000, 9_999, 10, 0]) for _ in range(rng.randrange(1, 9))]
    shares[0] = rng.choice([10_000, 3_333])
    return shares


def moves(rng, shares, lowest, highest):
    """One relative a unit, 0 for the absent."""
    return [rng.randrange(lowest, highest + 1) if g else 0 for g in shares]


def spoilt(rng, p):
    """Relatives that 9 or 13 refuses."""
    style = rng.randrange(4)
    if style == 0:
        return p[:-1]
    if style == 1:
        return p + [100_000]
    place = rng.randrange(len(p))
    return replaced(p, place, rng.choice([1, 10_000, 24_999, 400_001]))


def swinging(rng, shares, closes):
    """Closes that move each unit far and back again, so that forty and more are accepted."""
    calls = []
    back = None
    for _ in range(closes):
        if rng.random() < 0.3:
            calls.append(("quarter", moves(rng, shares, 25_000, 400_000)))
        if rng.random() < 0.1:
            calls.append((rng.choice(["quarter", "close"]), spoilt(rng, moves(rng, shares, 25_000, 400_000))))
        if back is None:
            out = [p if p == 0 else rng.choice([p, 25_000, 400_000]) for p in moves(rng, shares, 25_000, 400_000)]
            calls.append(("close", out))
            back = [10**10 // p if p else 0 for p in out]
        else:
            calls.append(("close", back))
            back = None
    return calls


def drifting(rng, shares, closes, lowest, highest):
    """Closes within a band, with wide quarters between."""
    calls = []
    for _ in range(closes):
        if rng.random() < 0.4:
            calls.append(("quarter", [rng.choice([25_000, 400_000, 100_000]) if g else 0 for g in shares]))
        calls.append(("close", moves(rng, shares, lowest, highest)))
    return calls


def a_chain(rng):
    """An opening and its calls: swinging, drifting, barely heavy enough, or wild."""
    shares = present_units(rng)
    closes = rng.choice([1, 3, 8, 20, 39, 40, 41, 43])
    style = rng.randrange(4)
    lowest, highest = (25_000, 400_000) if style in (0, 3) else (99_000, 101_000)
    W = [rng.randrange(2 * 10**10, 10**11) for _ in shares]
    if style == 0:
        calls = swinging(rng, shares, closes)
    elif style == 1:
        calls = drifting(rng, shares, closes, 98_000, 102_000)
    elif style == 2:
        # Weights just over 1,000,000: each floor loses nearly a millionth.
        shares = [rng.choice([10_000, 9_999, 9_998]) for _ in shares]
        W = [rng.choice([1_000_201, 1_010_001, 4_040_000, rng.randrange(1_000_201, 1_100_000)]) for _ in shares]
        lowest, highest = 100_000, 100_030
        calls = drifting(rng, shares, closes, 100_000, 100_030)
    else:
        calls = drifting(rng, shares, closes, 25_000, 400_000)
    a = moves(rng, shares, lowest, highest)
    start = rng.choice([10**9, 10**9, rng.randrange(5 * 10**8, 2 * 10**9), 10**8, 10**10])
    return {"W": W, "g": shares, "a": a, "start": start, "calls": calls}


def losing(small, large, start, closes, apart):
    """A chain that loses as much as it can: some units lose nearly one at each floor, the others nothing; at the end they move apart.

    `small` and `large` are (how many, W, g, a, relative at a close, relative apart).
    """
    sides = [side for side in (small, large) for _ in range(side[0])]
    W, g, a, usual, far = ([side[place] for side in sides] for place in range(1, 6))
    calls = [("close", usual)] * closes + [("close", far)] * apart + [("quarter", far)]
    return {"W": W, "g": g, "a": a, "start": start, "calls": calls}


def hostile_chains():
    """Chains that use over four fifths of the bound at their end, F below D and above it."""
    for closes in (0, 5, 20, 36):
        small = (1, 1_429_212_857, 7, 99_999, 99_999, 400_000)
        large = (1, 256_000_000, 10_000, 100_000, 100_000, 25_000)
        yield f"F below D, {closes} closes", losing(small, large, 10**9, closes, 3)
    for closes in (0, 5, 20, 35):
        many = (60, 3_334_953_333, 3, 99_999, 99_999, 25_000)
        one = (1, 1_000_000, 10_000, 100_000, 100_000, 400_000)
        data = losing(many, one, 4 * 10**8, closes, 0)
        apart = [99_999] * 60 + [400_000]
        data["calls"][-1:] = [("close", apart)] * 4 + [data["calls"][-1]]
        yield f"F above D, {closes} closes", data


@cases
def chain_cases(rng, count):
    """Whole chains for demand 3: openings that are accepted; calls hit 9, 13, 21, 22, 23 and 24."""
    for what, data in hostile_chains():
        yield 0, what, data
    for _ in range(count):
        yield 0, "random chain", a_chain(rng)


# Total


def a_total(rng):
    """Acceptable sector lists."""
    sectors = rng.choice([1, 2, 5, 63, 64])
    cuts = sorted(rng.choice([0, 10**6, rng.randrange(10**6 + 1)]) for _ in range(sectors - 1))
    edges = [0] + cuts + [10**6]
    return {
        "shares": [after - before for before, after in zip(edges, edges[1:])],
        "indices": [rng.choice([10**8, 10**10, rng.randrange(10**8, 10**10)]) for _ in range(sectors)],
    }


def shares_wrap(rng, data):
    """Shares that add to 1,000,000 in 32 bits only."""
    data.update(shares=[U32, 1_000_001], indices=[10**9, 10**9])


def shares_off(by):
    """A fault: the shares add to 1,000,000 and this much."""

    def spoil(rng, data):
        largest = data["shares"].index(max(data["shares"]))
        data["shares"][largest] += by

    return spoil


TOTAL_FAULTS = {
    14: {
        "no sectors": lambda rng, data: data.update(shares=[], indices=[]),
        "a share missing": lambda rng, data: data.update(shares=[10**6], indices=[10**9] * 2),
        "an index missing": drop_last("indices"),
        "65 sectors": lambda rng, data: data.update(shares=[10**6] + [0] * 64, indices=[10**9] * 65),
        "one millionth short": shares_off(-1),
        "one millionth over": shares_off(1),
        "shares that wrap": shares_wrap,
        "an index of 0": put_somewhere("indices", 0),
        "an index of 10^8 - 1": put_somewhere("indices", 10**8 - 1),
        "an index of 10^10 + 1": put_somewhere("indices", 10**10 + 1),
        "an index of 2^64 - 1": put_somewhere("indices", U64),
    }
}


def total_limits():
    """Both sides of each limit of the total."""
    base = {"shares": [10**6 - 1, 1], "indices": [10**9, 10**10]}
    many = {"shares": [10**6 - 64] + [1] * 64, "indices": [10**9] * 65}
    most = {"shares": [10**6 - 63] + [1] * 63, "indices": [10**9] * 64}
    one = {"shares": [10**6], "indices": [10**9]}
    return [
        ("sectors 1", (0, one), (14, {"shares": [], "indices": []})),
        ("sectors 64", (0, most), (14, many)),
        ("lists equal", (0, base), (14, changed(base, indices=[10**9] * 3))),
        ("shares not short", (0, base), (14, changed(base, shares=[10**6 - 1, 0]))),
        ("shares not over", (0, base), (14, changed(base, shares=[10**6 - 1, 2]))),
        ("index 10^8", (0, changed(base, indices=[10**8, 10**9])), (14, changed(base, indices=[10**8 - 1, 10**9]))),
        ("index 10^10", (0, base), (14, changed(base, indices=[10**9, 10**10 + 1]))),
        ("share 0", (0, changed(base, shares=[10**6, 0])), (14, changed(base, shares=[0, 0]))),
    ]


@cases
def total_cases(rng, count):
    """Total: means to hit 14 in each of its ways."""
    yield from limits_of(total_limits())
    yield from faults_of(rng, a_total, TOTAL_FAULTS)
    for _ in range(count):
        yield 0, "random", a_total(rng)
