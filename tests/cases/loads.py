"""Cases of document 02, [13]: start, count and three lent lists."""

from . import U64, cases, faults_of, junk, limits_of

MODULUS = 2**31
MOST_UNITS = 16_384


def some_load(rng):
    count = rng.choice([1, 2, 3, 50, 1_000, rng.randint(1, 400)])
    return call(rng, rng.choice([0, 1, 12_345, MODULUS - 1, rng.randrange(MODULUS)]), count)


def call(rng, start, count, beyond=(0, 1, 5)):
    room = [count + rng.choice(beyond) for _ in range(3)]
    lists = zip(("numbers", "turnovers", "randoms"), room, (2**32 - 1, U64, 2**32 - 1))
    return {"start": start, "count": count, **{name: junk(rng, places, top) for name, places, top in lists}}


def short(name):
    """A fault: this list is one place shorter than the count."""

    def spoil(rng, data):
        data[name] = data[name][: data["count"] - 1]

    return spoil


FAULTS = {
    33: {
        "the start is 2^31": lambda rng, data: data.update(start=MODULUS),
        "the start is the largest number": lambda rng, data: data.update(start=U64),
        "no unit": lambda rng, data: data.update(count=0),
        "a count that no list has": lambda rng, data: data.update(count=U64),
        "short numbers": short("numbers"),
        "short turnovers": short("turnovers"),
        "short random numbers": short("randoms"),
    }
}


@cases
def load_cases(rng, count):
    """The worked cases, each limit from both sides, each fault, then random ones."""
    for start in (0, 1, MODULUS - 1, 12_345):
        yield 0, "a worked start", call(rng, start, 3)
    yield 0, "a thousand units", call(rng, 12_345, 1_000)
    yield from limits_of(
        [
            ("start 2^31 − 1", (0, call(rng, MODULUS - 1, 2)), (33, call(rng, MODULUS, 2))),
            ("16,384 units", (0, call(rng, 7, MOST_UNITS, (0,))), (33, call(rng, 7, MOST_UNITS + 1, (0,)))),
        ]
    )
    yield from faults_of(rng, some_load, FAULTS)
    for _ in range(count):
        yield None, "random", some_load(rng)
