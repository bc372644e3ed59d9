"""Cases of an opening with an outside share G, and of whole chains from one."""

from . import U32, cases, changed, faults_of, limits_of, put
from .chains import OPEN_FAULTS, drifting, moves, spoilt, swinging, weights_over

# Document 02 by the case: arguments, and the first v; a small change of the code gives another answer (see the name).
WORKED = {
    "n counts absent units": (
        ([9_000_000] + [6_000_000] * 3, [10_000, 5_000, 2_500, 0], [100_000] * 3 + [0], [0, 1, 1, 1], 3_000),
        [9_000_000, 3_600_000, 1_800_000, 0],
    ),
    "one inner floor": (([1_815_905] * 2, [5_346, 7_218], [100_000] * 2, [1, 1], 8_800), [1_359_899, 1_836_092]),
    "a floor of the whole product": (
        ([3_333_333] * 3, [9_000, 8_000, 7_000], [100_000] * 3, [1, 1, 1], 9_998),
        [3_749_249, 3_332_666, 2_916_083],
    ),
    "no sampled unit, G is 0": (([4_000_000], [5_000], [100_000], [0], 0), [2_000_000]),
    "no sampled unit, G is 20,000": (([4_000_000], [5_000], [100_000], [0], 20_000), [2_000_000]),
    "marks say sampled": (
        ([8_000_000, 4_000_000, 4_000_000], [10_000, 5_000, 5_000], [100_000] * 3, [0, 1, 1], 8_000),
        [8_000_000, 3_200_000, 3_200_000],
    ),
    "a mark of 255": (
        ([8_000_000, 4_000_000, 4_000_000], [10_000, 5_000, 5_000], [100_000] * 3, [0, 255, 2], 8_000),
        [8_000_000, 3_200_000, 3_200_000],
    ),
    "G is the mean of g": (([4_000_000] * 2, [5_000, 7_500], [100_000] * 2, [1, 1], 6_250), [2_000_000, 3_000_000]),
}


def named(W, g, a, marks, G, start=10**9):
    return {"W": W, "g": g, "a": a, "start": start, "marks": marks, "G": G}


def an_opening(rng, units=None):
    """Acceptable arguments: first unit take-all and present, the next two sampled and present, the last sampled and absent."""
    units = units or rng.choice([4, 5, 9, 24, 100])
    marks = [0, 1, 1] + [rng.choice([0, 0, 1, 2, 255]) for _ in range(units - 4)] + [1]
    g = [rng.choice([10_000, 10_000, rng.randrange(100, 10_001), 0]) for _ in range(units)]
    g[0], g[1], g[2], g[-1] = 10_000, rng.randrange(100, 10_001), rng.choice([10_000, 100]), 0
    X = rng.randrange(10**10, 10**11 // 4)
    return {
        "W": [X if mark else rng.randrange(10**10, 10**11 // 4) for mark in marks],
        "g": g,
        "a": [rng.choice([25_000, 100_000, 400_000, rng.randrange(25_000, 400_001)]) if share else 0 for share in g],
        "start": rng.choice([10**8, 10**9, 10**10, rng.randrange(10**8, 10**10)]),
        "marks": marks,
        "G": rng.choice([10_000, 2_000, rng.randrange(2_000, 10_001)]),
    }


def sampled_absent(rng, data):
    """T is 0: every sampled unit absent, the first unit present."""
    for place, mark in enumerate(data["marks"]):
        if mark:
            data["g"][place] = data["a"][place] = 0


def larger(place):
    """A fault: one sampled unit's W is larger than the others' by 1."""
    return lambda rng, data: data["W"].__setitem__(place, data["W"][place] + 1)


def light_sample(rng, data):
    """The sampled units are too light, the inner floor too."""
    data["W"] = [200 if mark else W for W, mark in zip(data["W"], data["marks"])]


def take_all_light(rng, data):
    data["W"][0] = 1


OUTSIDE_FAULTS = {
    9: OPEN_FAULTS[9]
    | {
        "a mark missing": lambda rng, data: data["marks"].pop(),
        "a mark too many": lambda rng, data: data["marks"].append(0),
        "no marks": put("marks", []),
        "a mark missing, none sampled": lambda rng, data: data.update(marks=[0] * (len(data["W"]) - 1)),
    },
    10: OPEN_FAULTS[10],
    11: OPEN_FAULTS[11],
    12: OPEN_FAULTS[12],
    13: OPEN_FAULTS[13],
    29: {
        "G of 0": put("G", 0),
        "G of 10,001": put("G", 10_001),
        "G of 2^32 - 1": put("G", U32),
        "sampled units all absent": sampled_absent,
        "a present sampled unit differs": larger(1),
        "an absent sampled unit differs": larger(-1),
    },
    21: {"a light sample": light_sample, "a light take-all unit": take_all_light},
    22: {"sum of v over 10^13": weights_over},
}


def outside_limits():
    """Both sides of each limit of the opening with G."""
    base = named([10**9] * 3, [10_000, 5_000, 0], [100_000, 100_000, 0], [0, 1, 1], 5_000)
    one = named([4_000_000], [10_000], [100_000], [1], 10_000)
    two = named([4_000_000] * 2, [10_000, 1], [100_000] * 2, [0, 1], 10_000)
    full = named([10**13], [10_000], [100_000], [1], 10_000)
    whole = named([10**9] * 100, [10_000] * 100, [100_000] * 100, [1] * 100, 10_000)
    return [
        ("units 100", (0, whole), (9, named([10**9] * 101, [10_000] * 101, [100_000] * 101, [1] * 101, 10_000))),
        ("a mark for each unit", (0, base), (9, changed(base, marks=[0, 1]))),
        ("no sampled unit, a mark each", (0, changed(base, marks=[0] * 3)), (9, changed(base, marks=[0] * 4))),
        ("sum of W 10^13", (0, full), (10, changed(full, W=[10**13 + 1]))),
        ("share 10,000", (0, one), (11, changed(one, g=[10_001]))),
        ("start 10^8", (0, changed(base, start=10**8)), (12, changed(base, start=10**8 - 1))),
        ("relative 400,000", (0, changed(one, a=[400_000])), (13, changed(one, a=[400_001]))),
        ("G of 10,000", (0, one), (29, changed(one, G=10_001))),
        ("G of 1", (0, changed(one, W=[10**10], G=1)), (29, changed(one, W=[10**10], G=0))),
        ("T of 1", (0, two), (29, changed(two, g=[10_000, 0], a=[100_000, 0]))),
        ("W alike", (0, base), (29, changed(base, W=[10**9, 10**9, 10**9 + 1]))),
        ("W alike, a take-all unit's apart", (0, changed(base, W=[10**9 + 1, 10**9, 10**9])), (29, changed(base, marks=[1] * 3, W=[10**9 + 1, 10**9, 10**9]))),
        ("inner floor of 1,000,000", (0, changed(one, G=2_500)), (21, changed(one, G=2_499))),
        ("u of 1,000,000", (0, changed(base, W=[2_000_000] * 3, g=[10_000, 5_000, 5_000], a=[100_000] * 3)), (21, changed(base, W=[1_999_999] * 3, g=[10_000, 5_000, 5_000], a=[100_000] * 3))),
        ("v of 1,000,000", (0, changed(one, a=[25_000])), (21, changed(one, a=[25_000], G=9_999))),
        ("sum of v 10^13", (0, full), (22, changed(full, a=[100_001]))),
    ]


def orders():
    """Two faults at once where a small change of the code would answer the other."""
    yield 29, "29 before 21: sampled W differ and are light", named([1_000, 1_001], [10_000] * 2, [100_000] * 2, [1, 1], 5_000)
    yield 13, "13 before 29", named([4_000_000], [10_000], [0], [1], 0)
    yield 12, "12 before 29", named([4_000_000], [10_000], [100_000], [1], 0, start=0)
    yield 11, "11 before 29: all absent", named([4_000_000] * 2, [0, 0], [0, 0], [1, 1], 5_000)
    yield 9, "9 before 29, 10 and 12", named([0], [10_000], [100_000], [], 0, start=0)
    yield 21, "21 before 22", named([999_999, 9 * 10**12], [10_000] * 2, [100_000, 400_000], [0, 1], 10_000)


@cases
def outside_cases(rng, count):
    """Opening with an outside share: means to hit 9, 10, 11, 12, 13, 29, 21 and 22."""
    for what, (arguments, _) in WORKED.items():
        yield 0, what, changed(named(*arguments))
    yield from orders()
    yield from limits_of(outside_limits())
    yield from faults_of(rng, an_opening, OUTSIDE_FAULTS)
    for _ in range(count):
        data = an_opening(rng)
        style = rng.randrange(5)
        if style == 0:
            yield None, "no sampled unit", changed(data, marks=[0] * len(data["W"]), G=rng.choice([0, 1, 20_000, U32]))
        elif style == 1:
            yield None, "light", changed(an_opening(rng, 4), W=[rng.randrange(10**6, 8 * 10**6)] * 4, G=rng.randrange(1, 10_001))
        else:
            yield 0, "random", data


# Chains


def hostile(closes):
    """The chain that uses most of the bound: 83 % of it after 37 closes."""
    usual, far = [100_000, 99_999, 100_000, 0], [25_000, 400_000, 100_000, 0]
    data = named([64_000_000] + [992_507] * 3, [10_000, 4_751, 4_837, 0], [100_000, 99_999, 100_000, 0], [0, 1, 1, 1], 6_781, start=4 * 10**8)
    return data | {"calls": [("close", usual)] * closes + [("close", far)] * 2 + [("quarter", [25_000, 400_000, 25_000, 0])]}


def a_chain(rng):
    """An opening with an outside share and its calls: swinging, drifting, or barely heavy enough."""
    units = rng.randrange(2, 8)
    marks = [rng.choice([0, 1, 1, 7]) for _ in range(units)]
    g = [rng.choice([10_000, 9_999, 3_333, 500, 0]) for _ in range(units)]
    g[0], g[1], marks[1] = 10_000, rng.choice([10_000, 3_333]), 1
    closes = rng.choice([1, 3, 8, 20, 39, 40, 41])
    X = rng.randrange(2 * 10**10, 10**11)
    W = [X if mark else rng.randrange(2 * 10**10, 10**11) for mark in marks]
    style = rng.randrange(3)
    if style == 0:
        calls = swinging(rng, g, closes)
    elif style == 1:
        calls = drifting(rng, g, closes, 98_000, 102_000)
    else:
        X = rng.randrange(1_200_000, 1_400_000)
        W, g = [X] * units, [rng.choice([10_000, 9_999, 9_500]) for _ in range(units)]
        calls = drifting(rng, g, closes, 100_000, 100_030)
    if rng.random() < 0.3:
        calls.insert(rng.randrange(len(calls)), ("quarter", spoilt(rng, moves(rng, g, 90_000, 110_000))))
    G = rng.choice([10_000, rng.randrange(9_000, 10_001)])
    return named(W, g, moves(rng, g, 100_000, 101_000), marks, G) | {"calls": calls}


@cases
def outside_chain_cases(rng, count):
    """Whole chains from an opening with an outside share, all accepted at the open; calls hit 9, 13, 23 and 24."""
    for closes in (0, 5, 20, 37):
        yield 0, f"F below D, {closes} closes", hostile(closes)
    for _ in range(count):
        yield 0, "random chain", a_chain(rng)
