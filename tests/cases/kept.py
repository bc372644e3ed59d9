"""Cases of document 02, [9]: the group as unit numbers, draw and rotation with a threshold and previous lists."""

from . import U32, cases, changed, drop_last, faults_of, junk, limits_of, put
from .frames import (
    SIZE_FAULTS,
    TURNOVER_FAULTS,
    a_draw,
    a_frame,
    a_start,
    crowd,
    equal_numbers,
    frame_faults,
    frame_limits,
    likely_panel,
    nine_units,
    swapped_numbers,
)

MILLION = 10**6
FRAME_A = {
    "numbers": [11, 12, 13, 14, 15],
    "turnovers": [70 * MILLION, 10 * MILLION, 8 * MILLION, 7 * MILLION, 5 * MILLION],
    "randoms": [300_000, 500_000, 200_000, 900_000, 100_000],
    "z": 3,
}
# Three units of which none is take-all at z = 1, and the largest is not listed.
THREE = {"numbers": [1, 2, 3], "turnovers": [12, 2, 1], "randoms": [5, 3, 9], "z": 1}


def thresholds(rng, data, listed):
    """γ at the border of a listed unit, one beside it, the paper's, or either end."""
    largest = sorted(data["turnovers"], reverse=True)
    places = data["z"]
    rest = sum(largest[rng.randrange(0, places) :])
    choices = [1, 533, 666, 800, 999, 1_000]
    for number in listed[:3]:
        if number in data["numbers"]:
            turnover = data["turnovers"][data["numbers"].index(number)]
            choices += [1_000 * rng.randrange(1, places + 1) * turnover // max(rest, 1) + step for step in (-1, 0, 1)]
    return min(max(rng.choice(choices), 1), 1_000)


def some_list(rng, data):
    """A previous list: none, the largest units, any of the frame, dead units among them, or all of a small frame."""
    numbers = data["numbers"]
    style = rng.randrange(6)
    if style == 0:
        return []
    if style == 1:
        by_size = sorted(zip(data["turnovers"], numbers), reverse=True)
        return sorted(number for _, number in by_size[: rng.randrange(1, 101)])
    if style == 2:
        return sorted(set(rng.sample(range(U32 + 1), 4)) | set(rng.sample(numbers, min(len(numbers), 5))))
    if style == 3:
        return numbers[:100]
    return sorted(rng.sample(numbers, rng.randrange(1, min(len(numbers), 100) + 1)))


def keeping(rng, data):
    """γ and two lists that 30 lets pass."""
    first, second = some_list(rng, data), some_list(rng, data)
    return {"threshold": thresholds(rng, data, first + second), "first": first, "second": second}


KEEPING_FAULTS = {
    "γ is 0": put("threshold", 0),
    "γ is 1,001": put("threshold", 1_001),
    "γ is 2^32 - 1": put("threshold", U32),
    "γ is 0 with no lists": lambda rng, data: data.update(threshold=0, first=[], second=[]),
    "first list of 101": lambda rng, data: data.update(first=list(range(101))),
    "second list of 101": lambda rng, data: data.update(second=list(range(101))),
    "first list with equal numbers": put("first", [3, 3]),
    "second list falls": put("second", [3, 9, 4]),
}


def keeping_limits(data):
    """Both sides of each limit of 30."""
    yield "γ is 1", (0, changed(data, threshold=1)), (30, changed(data, threshold=0))
    yield "γ is 1,000", (0, changed(data, threshold=1_000)), (30, changed(data, threshold=1_001))
    for name in ("first", "second"):
        rises = (0, changed(data, **{name: [3, 4]})), (30, changed(data, **{name: [4, 4]}))
        yield f"{name} list of 100", (0, changed(data, **{name: list(range(100))})), (30, changed(data, **{name: list(range(101))}))
        yield f"{name} list rises", *rises


# what, frame, γ, first list, second list: the worked cases of [9]
WORKED_LISTS = [
    ("just kept", FRAME_A, 666, [12], []),
    ("just not kept", FRAME_A, 667, [12], []),
    ("all places kept", FRAME_A, 533, [12], [13]),
    ("one place left", FRAME_A, 534, [13], [12]),
    ("the order of the lists does not matter", FRAME_A, 534, [12], [13]),
    ("one unit in both lists", FRAME_A, 533, [12], [12]),
    ("take-all already", FRAME_A, 1, [11], []),
    ("not in the frame", FRAME_A, 1, [9, 10], [16]),
    ("no lists", FRAME_A, 800, [], []),
    ("no cap would keep two", THREE, 1, [3], [2]),
    ("the paper's border", THREE, 800, [1], []),
    ("above the paper's border", THREE, 801, [1], []),
]


def worked_lists():
    for what, frame, threshold, first, second in WORKED_LISTS:
        yield what, {**changed(frame), "threshold": threshold, "first": list(first), "second": list(second)}


# The group as unit numbers


def a_take_all_units(rng, units=None):
    data = a_frame(rng, units)
    data.pop("randoms")
    data.update(keeping(rng, data))
    data["out_units"] = junk(rng, data["z"] + rng.choice([0, 0, 1, 5]), U32)
    return data


UNITS_FAULTS = {
    1: {
        "a unit number missing": drop_last("numbers"),
        "a turnover missing": drop_last("turnovers"),
        "no units": lambda rng, data: data.update(numbers=[], turnovers=[]),
        "16,385 units": lambda rng, data: data.update(numbers=list(range(16_385)), turnovers=[1] * 16_385),
    },
    2: {"equal unit numbers": equal_numbers, "swapped unit numbers": swapped_numbers},
    3: TURNOVER_FAULTS,
    5: SIZE_FAULTS,
    6: {"buffer one short": lambda rng, data: data.update(out_units=data["out_units"][: data["z"] - 1]), "no buffer": put("out_units", [])},
    30: KEEPING_FAULTS,
}


def units_limits(base):
    """Both sides of each limit of 1, 2, 3, 5 and 6: those of a frame, without its random numbers."""
    framed = {**base, "randoms": [0] * 9, "start": 0}
    for what, within, beyond in frame_limits(framed, "start"):
        if beyond[0] != 4:
            pair = [(intends, {name: data[name] for name in base}) for intends, data in (within, beyond)]
            yield what, *pair
    yield "buffer of z", (0, changed(base, out_units=[7, 7])), (6, changed(base, out_units=[7]))


@cases
def take_all_units_cases(rng, count):
    """The group as unit numbers: means to hit 1, 2, 3, 5, 6 and 30."""
    for what, data in worked_lists():
        data.pop("randoms")
        yield 0, what, {**data, "out_units": junk(rng, 5, U32)}
    nine = nine_units(rng)
    base = {"numbers": nine["numbers"], "turnovers": nine["turnovers"], "z": 2, "threshold": 800, "first": [], "second": [], "out_units": junk(rng, 120, U32)}
    yield from limits_of(keeping_limits(base))
    yield from limits_of(units_limits(base))
    yield from faults_of(rng, lambda rng: a_take_all_units(rng, rng.randrange(3, 30)), UNITS_FAULTS)
    for _ in range(count):
        yield 0, "random", a_take_all_units(rng)


# Draw


def a_kept_draw(rng, units=None):
    data = a_draw(rng, units)
    data.update(keeping(rng, data))
    return data


KEPT_DRAW_FAULTS = {
    **frame_faults("start"),
    6: {
        "numbers' buffer one short": lambda rng, data: data.update(out_numbers=data["out_numbers"][: data["z"] - 1]),
        "no buffers": lambda rng, data: data.update(out_numbers=[], out_weights=[]),
    },
    30: KEEPING_FAULTS,
}


def kept_draws(rng, count):
    for what, data in worked_lists():
        yield 0, what, {**data, "start": 0, "out_numbers": junk(rng, 4, U32), "out_weights": junk(rng, 5, U32)}
    nine = {**nine_units(rng), "threshold": 800, "first": [], "second": []}
    yield from limits_of(frame_limits(nine, "start"))
    yield from limits_of(keeping_limits(nine))
    yield from limits_of([("buffers of z", (0, changed(nine, out_weights=[7, 7])), (6, changed(nine, out_weights=[7])))])
    yield from faults_of(rng, lambda rng: a_kept_draw(rng, rng.randrange(3, 30)), KEPT_DRAW_FAULTS)
    for _ in range(count):
        yield 0, "random", a_kept_draw(rng)


@cases
def kept_draw_cases(rng, count):
    """The draw with previous lists: means to hit 1 to 6 and 30."""
    yield from kept_draws(rng, count)


@cases
def kept_poisson_draw_cases(rng, count):
    """The same by sequential Poisson keys: means to hit 1 to 6 and 30."""
    yield from kept_draws(rng, count)


@cases
def large_kept_draw_cases(rng, count):
    """Draws with two lists of 100 from frames of 16,384 units: no refusals."""
    for number in range(count):
        data = a_draw(rng, 16_384)
        crowd(data, 16_384)
        data["turnovers"] = [rng.randrange(1, 10**6) for _ in data["numbers"]]
        data.update(z=100, out_numbers=junk(rng, 100, U32), out_weights=junk(rng, 101, U32))
        by_size = sorted(zip(data["turnovers"], data["numbers"]), reverse=True)
        largest = [unit for _, unit in by_size[:150]]
        data.update(threshold=[1, 5, 300][number % 3], first=sorted(largest[:100]), second=sorted(largest[50:]))
        yield 0, "two lists of 100", data


# Rotation


def a_kept_rotation(rng, units=None):
    data = a_frame(rng, units or rng.choice([2, 3, 5, 8, 13, 25]))
    if rng.random() < 0.7:
        data["randoms"] = [rng.randrange(1_000_000) for _ in data["numbers"]]
        data["z"] = rng.randrange(1, len(data["numbers"]) + 1)
    data["old_start"] = a_start(rng, data["randoms"])
    data["old_panel"] = rng.choice([likely_panel(data, data["old_start"]), sorted(rng.sample(data["numbers"], min(len(data["numbers"]), 3)))])
    data["f"] = rng.choice([0, 1, 200, 500, 1_000])
    births = sorted(rng.sample(data["numbers"], rng.choice([0, 1, len(data["numbers"]) // 2])))
    data.update(previous_n=rng.choice([1, 2, 100]), previous_rest=rng.choice([1, sum(data["turnovers"]), 10**12]), births=births)
    data.update(keeping(rng, data))
    data["out_leavers"] = junk(rng, len(data["old_panel"]) + len(births) + rng.choice([0, 0, 3]), U32)
    return data


def a_sound_rotation(rng):
    """One that is accepted: f = 0, so that faults can be put in."""
    data = a_kept_rotation(rng, rng.randrange(3, 13))
    data["f"] = 0
    return data


def panel_becomes(panel):
    def spoil(rng, data):
        data["old_panel"] = list(panel)
        data["out_leavers"] = junk(rng, len(panel) + len(data["births"]), U32)

    return spoil


def everybody_leaves(rng, data):
    """Every unit is in the old panel and shall leave, though one of them is always sampled: γ = 1,000 keeps nobody."""
    units = len(data["numbers"])
    data.update(turnovers=[9] * units, z=1, threshold=1_000, births=[], old_panel=list(data["numbers"]), f=1_000)
    data["out_leavers"] = junk(rng, units, U32)


def one_short(rng, data):
    """The leavers' buffer is one place short of both lists."""
    data["out_leavers"] = data["out_leavers"][: max(0, len(data["old_panel"]) + len(data["births"]) - 1)]


def births_become(births):
    def spoil(rng, data):
        data["births"] = births(data["numbers"])
        data["out_leavers"] = junk(rng, len(data["old_panel"]) + len(data["births"]), U32)

    return spoil


KEPT_ROTATE_FAULTS = {
    **frame_faults("old_start"),
    6: {"leavers' buffer one short": one_short, "no leavers' buffer": put("out_leavers", [])},
    30: KEEPING_FAULTS,
    7: {"f is 1,001": put("f", 1_001), "old panel falls": panel_becomes([3, 9, 4]), "old panel of 101": panel_becomes(range(101))},
    25: {"n' is 101": put("previous_n", 101), "X' is 0 and n' is not": put("previous_rest", 0)},
    26: {"a birth twice": births_become(lambda numbers: numbers[:1] * 2)},
    8: {"everybody leaves": everybody_leaves},
}


def no_place_left(rng):
    """All n places are kept, so that nobody is sampled and all members leave at step 0."""
    return {
        "numbers": [1, 2, 3, 4],
        "turnovers": [9, 10, 10, 1],
        "randoms": [0, 1, 2, 3],
        "z": 2,
        "old_start": 0,
        "old_panel": [1, 4],
        "f": 500,
        "previous_n": 0,
        "previous_rest": 0,
        "births": [],
        "threshold": 500,
        "first": [2, 3],
        "second": [],
        "out_leavers": [7, 7, 7],
    }


def kept_rotation_limits(rng):
    """Both sides of each limit of a rotation; the lists are those of a frame of nine units of which none is take-all."""
    nine = nine_units(rng)
    base = {name: nine[name] for name in ("numbers", "turnovers", "randoms", "z")}
    base.update(old_start=0, old_panel=[104], f=0, previous_n=2, previous_rest=5, births=[101], threshold=800, first=[], second=[])
    base["out_leavers"] = junk(rng, 120, U32)
    yield from frame_limits({**base, "births": []}, "old_start")
    yield from keeping_limits(base)
    room = base["out_leavers"]
    yield "buffer as both lists", (0, changed(base, out_leavers=room[:2])), (6, changed(base, out_leavers=room[:1]))
    yield "f is 1,000", (0, changed(base, f=1_000, births=[])), (7, changed(base, f=1_001))
    yield "n' is 100", (0, changed(base, previous_n=100)), (25, changed(base, previous_n=101))
    yield "births of the frame", (0, changed(base, births=[100, 108])), (26, changed(base, births=[100, 109]))
    # Ten members, three of them sampled under any start: seven can leave, not eight. With one kept two are sampled, and seven of nine can leave.
    ten = changed(base, numbers=list(range(10)), turnovers=[50] * 10, randoms=[10_000 * i for i in range(10)], births=[])
    ten.update(z=3, old_panel=list(range(10)), threshold=1_000)
    yield "seven of ten leave", (0, changed(ten, f=700)), (8, changed(ten, f=701))
    kept = changed(ten, threshold=1, first=[4])
    yield "seven of nine leave", (0, changed(kept, f=777)), (8, changed(kept, f=778))


def kept_rotations(rng, count):
    left = no_place_left(rng)
    yield 0, "all places kept: all members leave", left
    yield 0, "and births outside the enlarged group", changed(left, births=[1, 2, 3, 4], previous_n=100, previous_rest=1, out_leavers=[7] * 6)
    yield 30, "30 before 7", changed(left, old_panel=[4, 1], threshold=0)
    yield 6, "6 before 30", changed(left, old_panel=[4, 1], threshold=0, out_leavers=[7])
    yield 30, "30 before 25 and 26", changed(left, threshold=0, previous_n=101, births=[9], out_leavers=[7] * 3)
    yield from limits_of(kept_rotation_limits(rng))
    for what, data in worked_lists():
        rotation = {"old_start": 0, "old_panel": data["numbers"][1:], "f": 500, "previous_n": 0, "previous_rest": 0, "births": []}
        yield None, what, {**data, **rotation, "out_leavers": junk(rng, 5, U32)}
    yield from faults_of(rng, a_sound_rotation, KEPT_ROTATE_FAULTS)
    for _ in range(count):
        yield None, "random", a_kept_rotation(rng)


@cases
def kept_rotate_cases(rng, count):
    """Rotation with previous lists: means to hit 1 to 6, 30, 7, 25, 26 and 8. A random case may be refused by 8 alone."""
    yield from kept_rotations(rng, count)


@cases
def kept_poisson_rotate_cases(rng, count):
    """The same by sequential Poisson keys: means to hit 1 to 6, 30, 7, 25, 26 and 8."""
    yield from kept_rotations(rng, count)
