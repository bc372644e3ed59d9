"""Repeatable test cases: plain numbers, lists and bytes, for any computation of document 01.

A generator is called with a seed and a count. It yields its fixed cases (each
limit from both sides, each refusal, each pair of refusals) and then `count`
random ones; the first cases of a longer run are those of a shorter run. The
data of a case is a dictionary named as the entry's arguments. All numbers keep
to the machine's widths: 32 bits for unit numbers, random numbers, relatives and
shares, 64 bits for turnovers, weights and indices.

`intends` is the refusal the case must meet, 0 if it must be accepted, and None
if the case is random and anything may happen.
"""

import random
from functools import wraps
from itertools import combinations, islice
from typing import NamedTuple, Optional

U32 = 2**32 - 1
U64 = 2**64 - 1
HALF = 2**63  # twice this wraps to 0 in 64 bits


class Case(NamedTuple):
    """One case, with what is needed to make it again."""

    generator: str
    seed: int
    number: int
    intends: Optional[int]
    what: str
    data: dict


GENERATORS = {}


def cases(function):
    """Number the cases of a generator and list it in GENERATORS."""
    name = function.__name__

    @wraps(function)
    def numbered(seed, count):
        made = function(random.Random(f"{name} {seed}"), count)
        for number, (intends, what, data) in enumerate(made):
            yield Case(name, seed, number, intends, what, data)

    GENERATORS[name] = numbered
    return numbered


def again(generator, seed, number):
    """The case that a failure report names."""
    return next(islice(GENERATORS[generator](seed, number + 1), number, None))


def limits_of(pairs):
    """Both sides of each limit: (what, (intends, data) within, (intends, data) beyond)."""
    for what, within, beyond in pairs:
        yield within[0], f"{what}: within", within[1]
        yield beyond[0], f"{what}: beyond", beyond[1]


def faults_of(rng, make, faults):
    """Each fault alone, then each pair of numbers at once: the earlier one in `faults` is due.

    The earlier one is put in last, so that the later cannot hide it.
    """
    for number, ways in faults.items():
        for what, spoil in ways.items():
            data = make(rng)
            spoil(rng, data)
            yield number, what, data
    for first, second in combinations(faults, 2):
        first_what, spoil_first = rng.choice(list(faults[first].items()))
        second_what, spoil_second = rng.choice(list(faults[second].items()))
        data = make(rng)
        spoil_second(rng, data)
        spoil_first(rng, data)
        yield first, f"{first_what}; also {second}: {second_what}", data


def put(name, value):
    """A fault: this argument becomes this value."""
    fresh = list if isinstance(value, list) else int
    return lambda rng, data: data.update({name: fresh(value)})


def put_somewhere(name, value):
    """A fault: one place of a list becomes this value."""
    return lambda rng, data: data[name].__setitem__(rng.randrange(len(data[name])), value)


def drop_last(name):
    """A fault: a list loses its last place."""
    return lambda rng, data: data[name].pop()


def changed(data, **changes):
    """A copy of a case's data with some arguments replaced; lists are copied."""
    copy = {name: list(value) if isinstance(value, list) else value for name, value in data.items()}
    copy.update(changes)
    return copy


def replaced(numbers, place, value):
    """A copy of a list with one place replaced."""
    return numbers[:place] + [value] + numbers[place + 1 :]


def junk(rng, places, top):
    """What a buffer holds before a call."""
    return [rng.randrange(top + 1) for _ in range(places)]
