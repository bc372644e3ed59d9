"""Cases of document 02, [10]: interviews, strengths and minima."""

from . import HALF, U64, cases, changed, drop_last, faults_of, limits_of, put, put_somewhere, replaced

PLACES = 64
MOST_INTERVIEWS = 6_400
MOST_STRENGTH = 10**9

# T, strengths and minima with worked answers (tests/test_library.py has them)
WORKED = {
    "two passes": (10, [6, 6, 1, 2], [1, 3, 5, 0]),
    "remainders are not reduced": (3, [2, 2, 4], [0, 0, 0]),
    "equal remainders": (2, [1, 1, 1], [0, 0, 0]),
    "one leaves": (100, [5, 3, 2], [0, 40, 1]),
    "a quota that equals its minimum": (4, [1, 1], [2, 2]),
    "nothing to share": (0, [1, 1], [0, 0]),
}


def call(interviews, strengths, minima):
    return {"interviews": interviews, "strengths": list(strengths), "minima": list(minima)}


def some_sharing(rng):
    """An acceptable call. Minima near the quotas, so that sectors leave in several passes."""
    sectors = rng.choice([1, 2, 3, 4, 7, 20, PLACES])
    top = rng.choice([1, 3, 10, 1_000, MOST_STRENGTH])
    strengths = [rng.randint(1, top) for _ in range(sectors)]
    interviews = rng.choice([0, 1, sectors, 10, 100, 1_000, MOST_INTERVIEWS, rng.randrange(MOST_INTERVIEWS + 1)])
    left, minima = interviews, [0] * sectors
    for i in rng.sample(range(sectors), sectors):
        quota = interviews * strengths[i] // sum(strengths)
        minima[i] = min(left, rng.choice([0, quota, quota + 1, rng.randint(0, quota + 2), rng.randint(0, 2 * quota + 1)]))
        left -= minima[i]
    if rng.random() < 0.1:
        minima[rng.randrange(sectors)] += left
    return call(interviews, strengths, minima)


def minima_over(rng, data):
    """The minima are one more than T."""
    data["minima"][0] += data["interviews"] + 1 - sum(data["minima"])


def minima_wrap(rng, data):
    """Minima that wrap to a small sum in 64 bits."""
    data.update(strengths=[1, 1, 1], minima=[HALF, HALF, 1], interviews=1)


def many(sectors):
    return call(100, [1] * sectors, [1] * sectors)


FAULTS = {
    31: {
        "no sector": lambda rng, data: data.update(strengths=[], minima=[]),
        "a strength missing": drop_last("strengths"),
        "a minimum missing": drop_last("minima"),
        "65 sectors": lambda rng, data: data.update(many(PLACES + 1)),
        "a strength of 0": put_somewhere("strengths", 0),
        "a strength over 10^9": put_somewhere("strengths", MOST_STRENGTH + 1),
        "a strength of 2^64 - 1": put_somewhere("strengths", U64),
        "T over 6,400": put("interviews", MOST_INTERVIEWS + 1),
        "T of 2^64 - 1": put("interviews", U64),
        "minima over T": minima_over,
        "a minimum of 2^64 - 1": put_somewhere("minima", U64),
        "minima that wrap": minima_wrap,
    }
}


@cases
def sample_cases(rng, count):
    """The worked cases, each limit from both sides, each fault, then random ones."""
    for what, worked in WORKED.items():
        yield 0, what, call(*worked)
    base = call(10, [3, 2, 1], [1, 2, 0])
    yield from limits_of(
        [
            ("64 sectors", (0, many(PLACES)), (31, many(PLACES + 1))),
            ("strength 1", (0, base), (31, changed(base, strengths=[3, 2, 0]))),
            (
                "strength 10^9",
                (0, changed(base, strengths=[MOST_STRENGTH, 2, 1])),
                (31, changed(base, strengths=[MOST_STRENGTH + 1, 2, 1])),
            ),
            ("T of 6,400", (0, changed(base, interviews=MOST_INTERVIEWS)), (31, changed(base, interviews=MOST_INTERVIEWS + 1))),
            ("minima of T", (0, changed(base, minima=[5, 2, 3])), (31, changed(base, minima=replaced([5, 2, 3], 2, 4)))),
            ("one sector", (0, call(7, [5], [7])), (31, call(7, [5], [8]))),
        ]
    )
    full = call(MOST_INTERVIEWS, [MOST_STRENGTH] * PLACES, [0] * PLACES)
    yield 0, "all limits at once", full
    yield 0, "all limits at once, one minimum", changed(full, minima=[MOST_INTERVIEWS] + [0] * (PLACES - 1))
    yield from faults_of(rng, some_sharing, FAULTS)
    for _ in range(count):
        yield None, "random", some_sharing(rng)
