"""The built library against the independent computation, through the C interface, on every generator's cases."""

from collections import Counter

import generate
import library
from cases.samples import WORKED
from cases.years import LISTS
from independent import Refused, chain, frame, kept, load, outside, panels, register, sample, sheet, stream, writing
from independent.chain import Figure, Record, within_bound
from independent.panels import Course, Renewed

# Refusals that each entry has; each must be met many times.
REFUSALS = {
    "take_all_cases": {1, 3, 5, 6},
    "draw_cases": {1, 2, 3, 4, 5, 6},
    "rotate_cases": {1, 2, 3, 4, 5, 6, 7, 25, 26, 8},
    "poisson_draw_cases": {1, 2, 3, 4, 5, 6},
    "poisson_rotate_cases": {1, 2, 3, 4, 5, 6, 7, 25, 26, 8},
    "take_all_units_cases": {1, 2, 3, 5, 6, 30},
    "kept_draw_cases": {1, 2, 3, 4, 5, 6, 30},
    "kept_poisson_draw_cases": {1, 2, 3, 4, 5, 6, 30},
    "large_kept_draw_cases": set(),
    "kept_rotate_cases": {1, 2, 3, 4, 5, 6, 30, 7, 25, 26, 8},
    "kept_poisson_rotate_cases": {1, 2, 3, 4, 5, 6, 30, 7, 25, 26, 8},
    "open_cases": {9, 10, 11, 12, 13, 21, 22},
    "outside_cases": {9, 10, 11, 12, 13, 21, 22, 29},
    "quarter_cases": {9, 13, 19, 23, 24},
    "close_cases": {9, 13, 19, 21, 22, 23, 24},
    "year_cases": {9, 13, 19, 21, 22, 23, 24, 28},
    "renew_cases": {9, 10, 11, 13, 19, 21, 22},
    "renew_outside_cases": {9, 10, 11, 13, 19, 21, 22, 29},
    "total_cases": {14},
    "load_cases": {33},
    "word_cases": {17},
    "sample_cases": {31},
    "register_cases": {34, 35},
    "sheet_cases": {32},
    "write_cases": {15, 16, 27},
    "read_all_cases": {6, 15, 16, 17},
}


def compared(t, name, short, long, ours, theirs):
    """Each case of a generator: both give the same; each refusal of the entry is met, and so is an answer."""
    met = Counter()
    for case in generate.GENERATORS[name](t.seed, t.count(short, long)):
        expected = theirs(case.data)
        told = expected[0] if isinstance(expected, tuple) else expected
        met[told.number if isinstance(told, Refused) else 0] += 1
        t.check(ours(case.data) == expected, f"{name}: the library answers as the independent computation", repeat=case)
    for number in REFUSALS[name] | {0}:
        t.check(met[number] > 0, f"{name}: refusal {number} (0: accepted) is met", repeat=dict(met))


NUMBERS = [11, 12, 13, 14, 15]
TURNOVERS = [70_000_000, 10_000_000, 8_000_000, 7_000_000, 5_000_000]
RANDOMS = [300_000, 500_000, 200_000, 900_000, 100_000]


def panel_of(numbers, turnovers, randoms, z, start):
    """The library's panel and weights."""
    room = [0] * z
    answer, panel, weights = library.draw(numbers, turnovers, randoms, z, start, room, room)
    return answer, panel, weights


def test_reference_cases(t):
    """K1 to K6, K9, K10 and K11 on the built code; K7 and K8 are the listing, which chainrun prints."""
    expected = (frame.Drawn(2, 30_000_000), [11, 13, 15], [140_000_000, 30_000_000, 30_000_000])
    t.check(panel_of(NUMBERS, TURNOVERS, RANDOMS, 3, 0) == expected, "K1")
    t.check(panel_of(NUMBERS, TURNOVERS, RANDOMS[:4] + [220_000], 3, 0)[1] == [11, 12, 13], "K2")
    t.check(library.take_all_entry([20, 10, 10], 2, [9] * 3) == (frame.Taken(1, 1, 20), [1, 0, 0]), "K3")
    t.check(library.take_all_entry([19, 11, 10], 2, [9] * 3) == (frame.Taken(0, 2, 40), [0, 0, 0]), "K4")
    t.check(panel_of([7], [5], [0], 1, 0) == (frame.Drawn(0, 0), [7], [5]), "K5")
    answer, buffer = library.rotate(NUMBERS, TURNOVERS, RANDOMS, 3, 0, [13, 15], 500, 0, 0, [], [1, 2, 3])
    t.check((answer, buffer) == (frame.Rotated(101, 101_000, 1), [15, 2, 3]), "K6")
    t.check(panel_of(NUMBERS, TURNOVERS, RANDOMS, 3, 101_000)[1] == [11, 12, 13], "K6: the new panel")
    t.check(panel_of([1, 2, 3], [10] * 3, [500_000] * 3, 1, 0)[1] == [1], "K9")
    record = Record(1, [10**6] + [0] * 99, 10**9, 0, 0)
    t.check(library.quarter(record, [24_999])[1] == Refused(13), "K10: 24,999 is refused by 13")
    t.check(library.quarter(record, [25_000])[1] == Figure(250_000_000), "K10: 25,000 is taken")
    t.check(library.total([600_000, 400_000], [1_062_000_000, 10**9]) == chain.Total(1_037_200_000), "K11")


def test_take_all(t):
    compared(t, "take_all_cases", 400, 20_000, lambda d: library.take_all_entry(**d), lambda d: frame.take_all_entry(**d))


def test_take_all_units(t):
    compared(t, "take_all_units_cases", 300, 10_000, lambda d: library.take_all_units(**d), lambda d: frame.take_all_units(**d))


def test_kept_draw(t):
    """Draws with previous lists by either key, and with two lists of 100 from whole frames."""
    compared(t, "kept_draw_cases", 300, 10_000, lambda d: library.kept_draw(**d), lambda d: kept.draw(**d))
    poisson = frame.poisson_key
    compared(t, "kept_poisson_draw_cases", 100, 5_000, lambda d: library.kept_poisson_draw(**d), lambda d: kept.draw(**d, key=poisson))
    compared(t, "large_kept_draw_cases", 3, 30, lambda d: library.kept_draw(**d), lambda d: kept.draw(**d))


def test_kept_rotate(t):
    """Rotations with births and previous lists by either key."""
    compared(t, "kept_rotate_cases", 60, 2_000, lambda d: library.kept_rotate(**d), lambda d: kept.rotate(**d))
    poisson = frame.poisson_key
    compared(t, "kept_poisson_rotate_cases", 40, 1_000, lambda d: library.kept_poisson_rotate(**d), lambda d: kept.rotate(**d, key=poisson))


def test_no_lists(t):
    """With no lists, and any threshold that 30 lets pass, the draw is the base draw and the group the base group."""
    for case in generate.kept_draw_cases(t.seed + 1, t.count(100, 3_000)):
        if case.intends == 0:
            data = {**case.data, "first": [], "second": []}
            base = {name: value for name, value in data.items() if name not in ("threshold", "first", "second")}
            t.check(library.kept_draw(**data) == library.draw(**base), "no lists: the base draw", repeat=case)



def test_draw(t):
    compared(t, "draw_cases", 600, 20_000, lambda d: library.draw(**d), lambda d: frame.draw(**d))


def test_large_draw(t):
    """Frames of up to 16,384 units."""
    for case in generate.large_draw_cases(t.seed, t.count(4, 60)):
        expected = frame.draw(**case.data)
        t.check(library.draw(**case.data) == expected, "large frames: the library draws the same panel", repeat=case.what)


def test_near_draw(t):
    """Frames of a few hundred units and more, of each kind that the search among the smallest keys could stumble on."""
    for case in generate.near_draw_cases(t.seed, t.count(2, 80)):
        expected = frame.draw(**case.data)
        t.check(library.draw(**case.data) == expected, "near keys: the library draws the same panel", repeat=case.what)


def near_rotations(seed, count):
    """Near frames in which a few starts rotate enough, as rotations of a panel that was drawn from them."""
    for case in generate.near_draw_cases(seed, count):
        if len(case.data["numbers"]) > 1_025 or case.what not in ("spread random numbers", "heavy tail", "ties all over"):
            continue
        data = {name: case.data[name] for name in ("numbers", "turnovers", "randoms", "z")}
        drawn = library.draw(**case.data)
        old_panel = drawn[1][: case.data["z"]]
        last = dict(old_start=case.data["start"], old_panel=old_panel, f=20)
        yield case.what, dict(data, **last, previous_n=0, previous_rest=0, births=[], out_leavers=[7] * 101)
        births = data["numbers"][::3]
        half = dict(previous_n=data["z"], previous_rest=max(1, sum(data["turnovers"]) // 2))
        yield f"{case.what}, births", dict(data, **last, **half, births=births, out_leavers=[7] * (101 + len(births)))


def test_near_rotate(t):
    """Rotations of the same frames, by a few starts."""
    for what, data in near_rotations(t.seed, t.count(1, 12)):
        t.check(library.rotate(**data) == frame.rotate(**data), "near keys: the library rotates alike", repeat=what)


def test_rotate(t):
    """Answer and every place of the leavers' buffer."""
    compared(t, "rotate_cases", 150, 4_000, lambda d: library.rotate(**d), lambda d: frame.rotate(**d))


MEMBERSHIP = ("old_start", "old_panel", "previous_n", "previous_rest", "births")


def test_leavers_are_not_drawn(t):
    """A draw of the library under the answered start lacks exactly the leavers among the members."""
    for case in generate.rotate_cases(t.seed + 1, t.count(60, 1_000)):
        data = case.data
        answer, buffer = library.rotate(**data)
        if isinstance(answer, Refused):
            continue
        room = [0] * data["z"]
        lists = (data["numbers"], data["turnovers"], data["randoms"])
        _, panel, _ = library.draw(*lists, data["z"], answer.new_start, room, room)
        birth = frame.members_of(*lists, *(data[name] for name in MEMBERSHIP), frozenset())
        gone = {data["numbers"][i] for i in birth} - set(panel)
        t.check(gone == set(buffer[: answer.count]), "rotate: the new panel lacks exactly the leavers", repeat=case)


def poisson(entry, data):
    """The independent answer of an entry by sequential Poisson keys."""
    return entry(**data, key=frame.poisson_key)


def test_poisson_draw(t):
    """Sequential Poisson draws; also from the large frames and those that the search among the smallest keys could stumble on."""
    compared(t, "poisson_draw_cases", 600, 20_000, lambda d: library.draw_poisson(**d), lambda d: poisson(frame.draw, d))
    for name, short, long in (("large_draw_cases", 4, 60), ("near_draw_cases", 2, 80)):
        for case in generate.GENERATORS[name](t.seed + 1, t.count(short, long)):
            expected = poisson(frame.draw, case.data)
            t.check(library.draw_poisson(**case.data) == expected, f"{name}: the library draws the same panel", repeat=case.what)


def test_poisson_rotate(t):
    compared(t, "poisson_rotate_cases", 150, 4_000, lambda d: library.rotate_poisson(**d), lambda d: poisson(frame.rotate, d))
    for what, data in near_rotations(t.seed + 1, t.count(1, 12)):
        t.check(library.rotate_poisson(**data) == poisson(frame.rotate, data), "near keys: the library rotates alike", repeat=what)


def test_methods_differ(t):
    """Document 02, [8], worked: each method draws and rotates by its own key."""
    four = {"numbers": [1, 2, 3, 4], "turnovers": [50, 20, 50, 20], "randoms": [400_000, 700_000, 0, 100_000], "z": 2}
    for entry, panel in ((library.draw, [1, 3]), (library.draw_poisson, [3, 4])):
        told = entry(**four, start=0, out_numbers=[0, 0, 7], out_weights=[0, 0, 8])
        t.check(told == (frame.Drawn(2, 140), panel + [7], [140, 140, 8]), "the worked draw", repeat=told)
    for entry, k, leaver in ((library.rotate, 1, 3), (library.rotate_poisson, 0, 1)):
        told = entry(**four, old_start=0, old_panel=[1, 3], f=500, previous_n=0, previous_rest=0, births=[], out_leavers=[0, 7])
        t.check(told == (frame.Rotated(k, 1_000 * k, 1), [leaver, 7]), "the worked rotation", repeat=told)


def test_poisson_chain(t):
    """A chain opened with the weights of a sequential Poisson draw: every figure within the bound of the index reckoned from those weights."""
    figures = 0
    for case in generate.poisson_draw_cases(t.seed + 2, t.count(60, 2_000)):
        answer, _, weights = library.draw_poisson(**case.data)
        if isinstance(answer, Refused):
            continue
        W = weights[: case.data["z"]]
        g, a = [10_000] * len(W), [100_000 + i % 7 for i in range(len(W))]
        calls = [("quarter", [99_000 + 13 * i for i in range(len(W))]), ("close", [101_000 - 7 * i for i in range(len(W))])] * 2
        data = {"W": W, "g": g, "a": a, "start": 10**9, "calls": calls}
        figures += follow(t, case._replace(data=data))[0]
    t.check(figures > 100, "many figures were compared", repeat=figures)


def test_open(t):
    compared(t, "open_cases", 600, 30_000, lambda d: library.open_chain(**d), lambda d: chain.open_chain(**d))


def test_open_outside(t):
    compared(t, "outside_cases", 600, 30_000, lambda d: library.open_outside(**d), lambda d: outside.open_outside(**d))


def on_record(call, *lists):
    def tried(data):
        record = Record(*(data[name] for name in ("units", "weights", "index", "closes", "links")))
        after, answer = call(record, *(data[name] for name in lists))
        return answer, after

    return tried


def test_quarter(t):
    compared(t, "quarter_cases", 600, 30_000, on_record(library.quarter, "p"), on_record(chain.quarter, "p"))


def test_close(t):
    compared(t, "close_cases", 600, 30_000, on_record(library.close, "p"), on_record(chain.close, "p"))


def on_renewal(renew):
    def tried(data):
        record = Record(*(data[name] for name in ("units", "weights", "index", "closes", "links")))
        after, answer = renew(record, **{name: data[name] for name in ("W", "g", "a", "marks", "G") if name in data})
        return answer, after

    return tried


def test_renew(t):
    """Answer and every place of the lent record."""
    compared(t, "renew_cases", 600, 30_000, on_renewal(library.renew), on_renewal(panels.renew))
    compared(t, "renew_outside_cases", 400, 20_000, on_renewal(library.renew), on_renewal(panels.renew))


def on_year(year):
    def tried(data):
        record = Record(*(data[name] for name in ("units", "weights", "index", "closes", "links")))
        after, figures, answer = year(record, *(data[name] for name in LISTS), data["figures"])
        return answer, figures, after

    return tried


def test_year(t):
    compared(t, "year_cases", 400, 20_000, on_year(library.year), on_year(chain.year))


def test_year_record_list(t):
    """A list that is shorter than 104 places is no record: 19, after 28; one place more stays."""
    full = [1, 10**9, 0, 0, 2 * 10**6] + [0] * 99
    lists = [[101_000], [102_000], [103_000], [104_000]]
    for record, room, due in ((full[:-1], 3, 28), (full[:-1], 4, 19), (full, 3, 28)):
        answer, (after, *_, figures) = library.call("vougecress_year", record, *lists, [7] * room)
        t.check((answer.refusal, answer.count) == (due, 0), f"a record of {len(record)} places, {room} for figures: {due}")
        t.check((after, figures) == (record, [7] * room), "nothing is written")
    answer, (after, *_, figures) = library.call("vougecress_year", full + [5], *lists, [7] * 6)
    t.check((answer.refusal, answer.count) == (0, 4), "an accepted year")
    t.check(figures == [1_010_000_000, 1_020_000_000, 1_030_000_000, 1_040_000_000, 7, 7], "its figures")
    t.check(after[:5] == [1, 1_040_000_000, 1, 1, 2_080_000] and after[-1] == 5, "its record, and a place beyond")


def test_total(t):
    compared(t, "total_cases", 400, 20_000, lambda d: library.total(**d), lambda d: chain.total(**d))


def test_record_list(t):
    """A record that is shorter than 104 places is none: 19, and 6 where open is to write it; one place more stays."""
    full = [1, 10**9, 0, 0, 10**6] + [0] * 99
    answer, (after, _) = library.call("vougecress_close", full[:-1], [100_000])
    t.check((answer.refusal, answer.figure, after) == (19, 0, full[:-1]), "a record one place short is refused by 19")
    answer, _ = library.call("vougecress_quarter", full[:-1], [100_000])
    t.check((answer.refusal, answer.figure) == (19, 0), "a record one place short is refused by 19 at a quarter")
    answer, (after, _) = library.call("vougecress_close", full + [5], [200_000])
    t.check(answer.figure == 2 * 10**9 and after[-1] == 5, "a place beyond the record stays")
    lists = ([10**6], [10_000], [100_000])
    for room, number in ((103, 19), (104, 0), (105, 0)):
        before = (full + [5])[:room]
        answer, (*_, after) = library.call("vougecress_renew", *lists, before)
        t.check(answer == number and after == before, f"a renewal from a record of {room} places, here by the same record")
        answer, (*_, after) = library.call("vougecress_renew_outside", *lists, [0], 0, before)
        t.check(answer == number and after == before, "the same with an outside share that is not read")
    opening = (*lists, 10**9)
    for room, number in ((103, 6), (104, 0), (105, 0)):
        answer, (*_, after) = library.call("vougecress_open", *opening, [8] * room)
        t.check(answer == number, f"open with a record of {room} places")
        t.check(after[104:] == [8] * (room - 104) if number == 0 else after == [8] * room, "open writes 104 places")
    answer, (*_, after) = library.call("vougecress_open", [], [], [], 10**9, [8] * 103)
    t.check(answer == 6, "6 is lower than 9")
    for room, number in ((103, 6), (104, 0), (105, 0)):
        answer, (*_, after) = library.call("vougecress_open_outside", *opening, [1], 10_000, [8] * room)
        t.check(answer == number, f"open with an outside share and a record of {room} places")
        t.check(after[104:] == [8] * (room - 104) if number == 0 else after == [8] * room, "it writes 104 places")


def test_chains(t):
    """Whole chains: digit by digit, and every figure within the bound of demand 3 by exact fractions."""
    figures = 0
    longest = 0
    for case in generate.chain_cases(t.seed, t.count(2_000, 20_000)):
        figures_here, closes = follow(t, case)
        figures += figures_here
        longest = max(longest, closes)
    t.check(figures > 1_000, "many figures were compared", repeat=figures)
    t.check(longest == 40, "some chain reached forty closes", repeat=longest)


def test_chains_with_years(t):
    """Chains with years: digit by digit as the single calls, and every figure within the bound."""
    figures = sum(follow(t, case)[0] for case in generate.year_chain_cases(t.seed, t.count(400, 5_000)))
    t.check(figures > 1_000, "many figures were compared", repeat=figures)


def test_outside_chains(t):
    """The same from openings with an outside share."""
    told = [follow(t, case) for case in generate.outside_chain_cases(t.seed, t.count(500, 10_000))]
    t.check(sum(figures for figures, _ in told) > 1_000, "many figures were compared", repeat=len(told))
    t.check(max(closes for _, closes in told) == 40, "some chain reached forty closes")


def test_panels(t):
    """The same through several panels, each with or without an outside share."""
    ends = [follow(t, case) for case in generate.panels_cases(t.seed, t.count(800, 10_000))]
    t.check(sum(figures for figures, _ in ends) > 1_000, "many figures were compared")
    t.check(max(links for _, links in ends) == 40, "some chain reached forty links")


def openings_of(data):
    """A chain's opening by the library and by the independent computation, and the exact side."""
    arguments = {name: value for name, value in data.items() if name != "calls"}
    ours, theirs = (library.open_outside, outside.open_outside) if "G" in data else (library.open_chain, chain.open_chain)
    return ours(**arguments), theirs(**arguments), Course(**arguments)


def follow_year(t, case, ours, theirs, lists, exact):
    """A year through the library beside the independent single calls, up to a refused one."""
    after, buffer, told = library.year(ours, *lists, [7] * 4)
    made = []
    for place, p in enumerate(lists):
        theirs, expected = (chain.close if place == 3 else chain.quarter)(theirs, p)
        if isinstance(expected, Refused):
            break
        made.append(expected.F)
        t.check(within_bound(buffer[place], exact.D(p), exact.allowed()), "year: the figure is within the bound", repeat=case)
        if place == 3:
            exact.closed(p)
    t.check((buffer, told.count, after) == (made + [7] * (4 - len(made)), len(made), theirs), "year: as its single calls", repeat=case)
    t.check(not isinstance(expected, Refused) or told == chain.Stopped(expected.number, len(made)), "year: the refusal", repeat=case)
    return after, theirs, len(made)


def follow_renewal(t, case, ours, theirs, opening, exact):
    """A renewal through the library beside the independent one; both records after it."""
    ours, told = library.renew(ours, **opening)
    theirs, expected = panels.renew(theirs, **opening)
    t.check((told, ours) == (expected, theirs), "chain: a renewal and the record after it", repeat=case)
    if isinstance(expected, Renewed):
        exact.renewed(opening)
    return ours, theirs


def follow(t, case):
    """One chain through the library beside the independent one; the count of figures and of links."""
    data = case.data
    ours, theirs, exact = openings_of(data)
    t.check(ours == theirs, "chain: the open", repeat=case)
    if isinstance(theirs, Refused):
        return 0, 0
    figures = 0
    for name, p in data["calls"]:
        if name == "year":
            ours, theirs, made = follow_year(t, case, ours, theirs, p, exact)
            figures += made
            continue
        if name == "renew":
            ours, theirs = follow_renewal(t, case, ours, theirs, p, exact)
            continue
        ours, told = getattr(library, name)(ours, p)
        theirs, expected = getattr(chain, name)(theirs, p)
        t.check((told, ours) == (expected, theirs), f"chain: a {name} and the record after it", repeat=case)
        if isinstance(expected, Figure):
            figures += 1
            t.check(within_bound(told.F, exact.D(p), exact.allowed()), "chain: the figure is within the bound", repeat=case)
            if name == "close":
                exact.closed(p)
    return figures, theirs.links


def what_is_read(command):
    """The refusal's number, or the command's name."""
    return command.number if isinstance(command, Refused) else command[0]


def test_read(t):
    """Every kind of command whole and cut at each length, unknown bytes, the end, and both sides of 32,768 bytes."""
    met = Counter()
    for case in generate.reader_cases(t.seed, t.count(3_000, 30_000)):
        part = case.data["part"]
        expected = stream.read_command(part)
        met[what_is_read(expected[0])] += 1
        t.check(library.read_command(part) == expected, "read: as the independent computation", repeat=case)
    for what in (15, 16, 17, *(name for name, _ in library.READ.values())):
        t.check(met[what] > 0, f"read: {what} is met", repeat=dict(met))


def test_read_streams(t):
    """Each command of whole streams, the next from where the one before says that it ends."""
    commands = 0
    for case in generate.stream_cases(t.seed, t.count(30, 1_500)):
        rest, going = case.data["stream"], True
        while going:
            expected = stream.read_command(rest)
            told = library.read_command(rest)
            t.check(told == expected, "read: each command of a stream", repeat=case)
            going = told == expected and len(told[1]) < len(rest)
            rest = told[1]
            commands += 1
    t.check(commands > 10_000, "many commands were read", repeat=commands)


def test_nothing_lent(t):
    """A null pointer where the count is 0: the stream has ended, and prints nothing; a buffer of no places takes no text."""
    read = library.built().vougecress_read(None, 0)
    fields = [getattr(read, name) for name, _ in read._fields_]
    t.check(fields == [0] * 6, "reading nothing answers that the stream has ended", repeat=fields)
    ran = library.built().vougecress_run(None, 0, None, 0)
    t.check((ran.refusal, ran.length) == (0, 0), "running nothing prints nothing")
    expected = stream.run(generate.LISTING)
    t.check(library.run(generate.LISTING, b"") == (6, 0, b""), "an empty buffer is refused by 6 and nothing else")
    t.check(library.run_length(generate.LISTING) == len(expected), "the length is an answer of its own")
    t.check(library.run_length(b"") == 0, "nothing takes no byte")


def test_load(t):
    compared(t, "load_cases", 60, 2_000, lambda data: library.load(**data), lambda data: load.load(**data))


def test_loads_are_drawn(t):
    """Every load is accepted by a draw; document 02's worked load draws its worked panel."""
    for start, count, z, first in ((0, 1, 1, 0), (12_345, 1_000, 3, 0), (2**31 - 1, 16_384, 100, 999_999)):
        _, *lists = library.load(start, count, *([0] * count for _ in range(3)))
        answer, panel, weights = panel_of(*lists, z, first)
        t.check(answer == frame.draw(*lists, z, first, [0] * z, [0] * z)[0], "a load is drawn", repeat=(start, count, z, first))
        if start == 12_345:
            t.check((panel, weights) == ([90, 307, 314], [4_969_607_296] * 3), "the worked draw")


def test_word(t):
    compared(t, "word_cases", 300, 20_000, lambda data: library.front_word(**data), lambda data: stream.front_word(**data))
    t.check(library.built().vougecress_word(None, 0).refusal == 17, "nothing lent is cut short, and no end")


def test_two_words(t):
    """A turnover and a start index as the reader answers them are two words, the upper first."""
    for case in generate.word_cases(t.seed, t.count(100, 5_000)):
        octets = (case.data["part"] + bytes(16))[:16]
        both = library.front_word(octets[:8]) * 2**32 + library.front_word(octets[4:])
        t.check(library.read_command(b"\x05" + octets)[0] == ("open", both), "a start index is two words", repeat=case)
        t.check(library.read_command(b"\x01" + octets[12:] + octets)[0][2] == both, "a turnover is two words", repeat=case)
    t.check(library.front_word(b"\0\0\0\1") * 2**32 + library.front_word(b"\0\0\0\2") == 4_294_967_298, "the upper first")
def test_sample(t):
    compared(t, "sample_cases", 600, 30_000, lambda data: library.share(**data), lambda data: sample.share(**data))


# The worked answers: counts, whole parts and remainders of the sectors.
WORKED_ANSWERS = {
    "two passes": ([2, 3, 5, 0], [1, 0, 0, 0], [4, 0, 0, 4]),
    "remainders are not reduced": ([1, 1, 1], [0, 0, 1], [6, 6, 4]),
    "equal remainders": ([1, 1, 0], [0, 0, 0], [2, 2, 2]),
    "one leaves": ([43, 40, 17], [42, 0, 17], [6, 0, 1]),
    "a quota that equals its minimum": ([2, 2], [2, 2], [0, 0]),
    "nothing to share": ([0, 0], [0, 0], [0, 0]),
}


def test_worked_samples(t):
    """Each worked case by its own numbers; beyond the sectors every place is 0."""
    t.check(set(WORKED) == set(WORKED_ANSWERS), "each worked case has an answer")
    for what, expected in WORKED_ANSWERS.items():
        told = library.share(*WORKED[what])
        t.check(tuple(told) == tuple(values + [0] * (64 - len(values)) for values in expected), what, repeat=told)
def test_import(t):
    compared(t, "register_cases", 400, 20_000, lambda data: library.import_lists(**data), lambda data: register.import_lists(**data))


def test_import_units(t):
    """The same texts into a list of unit records."""
    for case in generate.register_cases(t.seed, 4_000 if t.long else 200):
        text, *lists = case.data.values()
        units = list(zip(*lists))
        t.check(library.import_units(text, units) == register.import_units(text, units), "as the independent computation", repeat=case)


def test_damaged_registers(t):
    """Every byte of a text changed to each of the bytes that matter, left out, and put in."""
    text = b"1,2,3\r\n4294967295,18446744073709551615,00000000004294967295\n70,80,90"
    room = [[5] * 3, [6] * 3, [7] * 3]
    for at in range(len(text) + 1):
        for byte in b"09,\n\r x/:\x00\xff":
            for damaged in (text[:at] + bytes([byte]) + text[at + 1 :], text[:at] + bytes([byte]) + text[at:], text[:at] + text[at + 1 :], text[:at]):
                t.check(library.import_lists(damaged, *room) == register.import_lists(damaged, *room), "as the independent computation", repeat=damaged)


def test_long_register(t):
    """A text of many megabytes, refused by its last line or for its length: every list as it was."""
    lines = b"1,2,3\n" * 1_000_000
    room = [[5] * 10, [6] * 10, [7] * 10]
    t.check(library.import_lists(lines, *room) == (Refused(35), *room), "more lines than places")
    t.check(library.import_lists(lines + b"1,2,3\r", *room) == (register.BadLine(offset=len(lines)), *room), "the last line is bad")
def test_sheet(t):
    compared(t, "sheet_cases", 2_000, 100_000, lambda data: library.sheet(**data), lambda data: sheet.sheet(**data))


def test_sheet_of_every_change(t):
    """A figure and each of its neighbours at exact hundredths of a percent: c, the rest and the print."""
    for old in (10**8, 10**9, 1_064_332_000, 10**10):
        for c in (*range(-130, 131), -9_900, -9_899, -100, 9_999, 10_000, 990_000):
            for new in {old + old * c // 10_000 + beside for beside in (-1, 0, 1)}:
                if 10**8 <= new <= 10**10:
                    out = bytes([7] * 50)
                    t.check(library.sheet(b"x", new, old, out) == sheet.sheet(b"x", new, old, out), "a line", repeat=(new, old))
def test_write(t):
    compared(t, "write_cases", 300, 10_000, lambda data: library.write(**data), lambda data: writing.write(**data))


def test_read_all(t):
    compared(t, "read_all_cases", 60, 2_000, lambda data: library.read_all(**data), lambda data: writing.read_all(**data))


def test_round_trips(t):
    """Written and read: the commands given, absent operands 0. Read and written: the same bytes, and the bytes beyond stay."""
    met = Counter()
    for case in generate.write_cases(t.seed + 1, t.count(100, 3_000)):
        length, out = library.write(**case.data)
        if isinstance(length, Refused):
            continue
        met["written"] += 1
        rows = zip(*(case.data[name] for name in writing.LISTS))
        wanted = [writing.row_of(stream.read_command(writing.octets_of(row))[0]) for row in rows]
        count, *lists = library.read_all(out[:length], *([7] * (len(wanted) + 1) for _ in writing.LISTS))
        read = [list(row) for row in zip(*(column[:count] for column in lists))]
        t.check(read == wanted and all(column[count:] == [7] for column in lists), "written and read", repeat=case)
    for case in generate.stream_cases(t.seed, t.count(20, 500)):
        octets = case.data["stream"]
        room = len(octets)
        count, *lists = library.read_all(octets, *([0] * room for _ in writing.LISTS))
        if isinstance(count, Refused):
            continue
        met["read"] += 1
        again = library.write(*(column[:count] for column in lists), bytes([170]) * (room + 3))
        t.check(again == (room, octets + bytes([170]) * 3), "read and written", repeat=case)
    t.check(min(met["written"], met["read"]) > 50, "many were written and read", repeat=dict(met))


def test_written_listing(t):
    """The listing's 156 bytes from its commands; nothing lent at all is an empty stream."""
    count, *lists = writing.read_all(generate.LISTING, *([0] * 20 for _ in writing.LISTS))
    given = [column[:count] for column in lists]
    t.check(library.write(*given, bytes(156)) == (156, generate.LISTING), "the listing's bytes")
    t.check(library.write(*given, bytes(155)) == (Refused(27), bytes(155)), "one byte too few")
    written = library.built().vougecress_write(*[None, 0] * 7)
    t.check((written.refusal, written.length) == (0, 0), "nothing is written as nothing")
    listed = library.built().vougecress_read_all(*[None, 0] * 7)
    t.check((listed.refusal, listed.count) == (0, 0), "nothing is read as nothing")
