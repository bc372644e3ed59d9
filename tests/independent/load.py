"""Document 02, [13]: a test load that both bureaus can make."""

from . import Refused

MODULUS = 2**31
MOST_UNITS = 16_384


def states(start):
    """The states after the start, one a step."""
    s = start
    while True:
        s = (s * 1_103_515_245 + 12_345) % MODULUS
        yield s


def units(start, count):
    """(number, turnover, random number) of unit 1, 2, … : two steps a unit."""
    steps = states(start)
    for i in range(1, count + 1):
        first, second = next(steps), next(steps)
        yield i, first % 10_000_000 + 1, second % 1_000_000


def load(start, count, numbers, turnovers, randoms):
    """The answer, and the three buffers afterwards."""
    room = min(len(numbers), len(turnovers), len(randoms))
    if start >= MODULUS or count == 0 or count > MOST_UNITS or room < count:
        return Refused(33), numbers, turnovers, randoms
    made = list(zip(*units(start, count)))
    news = [list(column) for column in made]
    return (count, *(new + old[count:] for new, old in zip(news, (numbers, turnovers, randoms))))
