"""Document 01, "Reference cases": K1 to K11, the listing, D, and the mistakes it names.

A mistake is put into the independent computation for a moment; the digits that
document 01 names for it, or another panel, must then come out.
"""

from contextlib import contextmanager
from fractions import Fraction

from generate import LISTING
from independent import Refused, chain, frame, stream
from independent.chain import Direct, Figure, Record, Total, close, open_chain, quarter, total
from independent.frame import Drawn, Rotated, draw, rotate, take_all
from independent.stream import run

NUMBERS = [11, 12, 13, 14, 15]
TURNOVERS = [70_000_000, 10_000_000, 8_000_000, 7_000_000, 5_000_000]
RANDOMS = [300_000, 500_000, 200_000, 900_000, 100_000]

PRINTED = b"P 11 140000000\nP 13 30000000\nP 15 30000000\nC 1062000000\nQ 1063799994\n"

# The relatives of the listing: at the open, at the close, at the quarter.
OPENING = ([140_000_000, 30_000_000, 30_000_000], [10_000] * 3, [100_000] * 3, 1_000_000_000)
CLOSING = [105_000, 98_000, 120_000]
QUARTERLY = [100_000, 100_000, 101_000]


def panel(numbers, turnovers, randoms, z, key=frame.pareto_key):
    """The unit numbers drawn from start 0."""
    return draw(numbers, turnovers, randoms, z, 0, [0] * z, [0] * z, key=key)[1]


def k2_panel(key=frame.pareto_key):
    """Frame A with the random number of 15 set to 220,000."""
    return panel(NUMBERS, TURNOVERS, RANDOMS[:4] + [220_000], 3, key)


def k9_panel():
    """Three units alike."""
    return panel([1, 2, 3], [10] * 3, [500_000] * 3, 1)


@contextmanager
def mistaken(module, name, mistake):
    """The module with one name replaced, for a moment."""
    right = getattr(module, name)
    setattr(module, name, mistake)
    try:
        yield
    finally:
        setattr(module, name, right)


def test_k1(t):
    found = take_all(TURNOVERS, 3)
    t.check((found.q, found.n, found.X, found.group) == (1, 2, 30_000_000, {0}), "K1 take-all", found)
    answer = draw(NUMBERS, TURNOVERS, RANDOMS, 3, 0, [1] * 4, [2] * 4)
    weights = [140_000_000, 30_000_000, 30_000_000, 2]
    t.check(answer == (Drawn(2, 30_000_000), [11, 13, 15, 1], weights), "K1 draw", answer)


def test_k2(t):
    t.check(k2_panel() == [11, 12, 13], "K2", k2_panel())


def test_k3_k4_k5(t):
    found = take_all([20, 10, 10], 2)
    t.check((found.q, found.n, found.X, found.group) == (1, 1, 20, {0}), "K3", found)
    found = take_all([19, 11, 10], 2)
    t.check((found.q, found.n, found.X, found.group) == (0, 2, 40, set()), "K4", found)
    found = take_all([7], 1)
    t.check((found.q, found.n, found.X, found.group) == (1, 0, 0, {0}), "K5", found)
    answer = draw([4], [7], [0], 1, 0, [0], [0])
    t.check(answer == (Drawn(0, 0), [4], [7]), "K5 weight is the turnover", answer)


def test_k6(t):
    for previous_n, previous_rest in ((0, 0), (2, 30_000_000)):
        answer = rotate(NUMBERS, TURNOVERS, RANDOMS, 3, 0, [13, 15], 500, previous_n, previous_rest, [], [1, 2, 3])
        t.check(answer == (Rotated(101, 101_000, 1), [15, 2, 3]), "K6, without births", answer)
    drawn = draw(NUMBERS, TURNOVERS, RANDOMS, 3, 101_000, [0] * 3, [0] * 3)[1]
    t.check(drawn == [11, 12, 13], "K6 new panel", drawn)


def test_k7_k8(t):
    opened = open_chain(*OPENING)
    direct = Direct(*OPENING)
    t.check(opened == Record(3, OPENING[0] + [0] * 97, 10**9, 0, 0), "open", opened)
    t.check(direct.D(CLOSING) == 1_062_000_000, "D at the close", direct.D(CLOSING))
    closed, answer = close(opened, CLOSING)
    t.check(answer == Figure(1_062_000_000), "K7", answer)
    weights = [147_000_000, 29_400_000, 36_000_000] + [0] * 97
    t.check(closed == Record(3, weights, 1_062_000_000, 1, 1), "record after the close", closed)
    direct.closed(CLOSING)
    record, answer = quarter(closed, QUARTERLY)
    t.check(answer == Figure(1_063_799_994), "K8", answer)
    t.check(record == closed, "a quarter leaves the record", record)
    t.check(direct.D(QUARTERLY) == Fraction(1_063_800_000), "D of the listing", direct.D(QUARTERLY))
    t.check(direct.m == 2, "m after one close", direct.m)


def test_k9(t):
    t.check(k9_panel() == [1], "K9", k9_panel())


def k10():
    """A relative of 24,999 and one of 25,000, at the open and at a quarter."""
    record = open_chain([10**9], [10_000], [100_000], 10**9)
    return [
        open_chain([10**9], [10_000], [24_999], 10**9) == Refused(13),
        open_chain([10**9], [10_000], [25_000], 10**9) != Refused(13),
        quarter(record, [24_999])[1] == Refused(13),
        quarter(record, [25_000])[1] == Figure(250_000_000),
    ]


def test_k10(t):
    t.check(k10() == [True] * 4, "K10", k10())


def test_k11(t):
    answer = total([600_000, 400_000], [1_062_000_000, 1_000_000_000])
    t.check(answer == Total(1_037_200_000), "K11", answer)


def test_listing(t):
    t.check(run(LISTING) == PRINTED, "the listing byte for byte", run(LISTING))


def last_word(printed, line):
    """The last number of one line of a listing."""
    return int(printed.split(b"\n")[line].split()[-1])


def test_named_mistakes(t):
    with mistaken(chain, "updated_weight", lambda weight, relative: weight):
        t.check(last_word(run(LISTING), 4) == 1_063_593_000, "old weights kept at close", run(LISTING))
    own = lambda place, turnovers, stratum: stratum.n * turnovers[place]
    with mistaken(frame, "base_weight", own):
        t.check(last_word(run(LISTING), 3) == 1_052_289_150, "n x own turnover", run(LISTING))
    with mistaken(frame, "reaches", lambda places, turnover, X: places * turnover > X):
        t.check(take_all([20, 10, 10], 2).q == 0, "'greater than' breaks K3", take_all([20, 10, 10], 2))
    over_probability = lambda r, turnover, n, X: Fraction(r * X, n * turnover)
    mistaken_panel = k2_panel(over_probability)
    t.check(mistaken_panel == [11, 13, 15], "r over probability takes 15 in K2", mistaken_panel)
    with mistaken(frame, "order", lambda its_key, number: (its_key, -number)):
        t.check(k9_panel() == [3], "ties by higher number break K9", k9_panel())
    with mistaken(chain, "LOWEST_RELATIVE", 24_999):
        t.check(k10() == [False, True, False, True], "24,999 taken breaks K10", k10())


def test_mistakes_are_undone(t):
    with mistaken(stream, "LONGEST_STREAM", 10):
        t.check(run(LISTING) == b"R 15 0\n", "a mistake is felt", run(LISTING))
    t.check(run(LISTING) == PRINTED, "and then gone", run(LISTING))
