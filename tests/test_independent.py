"""Is the independent computation sane, and are the generators sharp?

The laws here are reckoned in another way than the computation does: by whole
numbers where it uses fractions, by trying where it searches.
"""

import math
from copy import deepcopy
from fractions import Fraction
from itertools import islice

import generate
from cases.frames import WORKED_ANSWERS, worked_births
from independent import Refused, kept
from cases.outsides import WORKED as OUTSIDE_WORKED
from independent.chain import Direct, Figure, Record, Total, close, open_chain, quarter, total, within_bound, year
from independent.panels import Course, Renewed, renew
from independent.outside import OutsideDirect, inner_floor, open_outside, shared_weights
from independent.frame import Drawn, Rotated, Taken, draw, pareto_key, poisson_key, rotate, take_all, take_all_entry, take_all_units
from independent.stream import COMMANDS, END, Job, front_word, read_command, run, step
from independent.sample import share
from independent.register import BadLine, import_lists, line_number, units_of
from independent.sheet import sheet
from independent.writing import LISTS, read_all, write

STREAM_REFUSALS = {1, 2, 3, 4, 5, 10, 11, 12, 13, 15, 16, 17, 18, 19, 20, 21, 22, 23, 24}


# Each entry on a case: its answer, and whether the buffers or the record it hands
# back are as they were (None for an entry that hands back nothing)


def try_draw(data):
    answer, numbers, weights = draw(**data)
    return answer, (numbers, weights) == (data["out_numbers"], data["out_weights"])


def try_poisson_draw(data):
    answer, numbers, weights = draw(**data, key=poisson_key)
    return answer, (numbers, weights) == (data["out_numbers"], data["out_weights"])


def try_poisson_rotate(data):
    answer, leavers = rotate(**data, key=poisson_key)
    return answer, leavers == data["out_leavers"]


def try_take_all(data):
    answer, marks = take_all_entry(**data)
    return answer, marks == data["out_marks"]


def try_take_all_units(data):
    answer, units = take_all_units(**data)
    return answer, units == data["out_units"]


def try_kept_draw(data):
    answer, numbers, weights = kept.draw(**data)
    return answer, (numbers, weights) == (data["out_numbers"], data["out_weights"])


def try_kept_poisson_draw(data):
    answer, numbers, weights = kept.draw(**data, key=poisson_key)
    return answer, (numbers, weights) == (data["out_numbers"], data["out_weights"])


def try_kept_rotate(data):
    answer, leavers = kept.rotate(**data)
    return answer, leavers == data["out_leavers"]


def try_kept_poisson_rotate(data):
    answer, leavers = kept.rotate(**data, key=poisson_key)
    return answer, leavers == data["out_leavers"]


def try_rotate(data):
    answer, leavers = rotate(**data)
    return answer, leavers == data["out_leavers"]


def try_open(data):
    return open_chain(**data), None


def try_outside(data):
    return open_outside(**data), None


def record_of(data):
    """The record of a quarter or close case."""
    return Record(*(data[name] for name in ("units", "weights", "index", "closes", "links")))


def try_quarter(data):
    record, answer = quarter(record_of(data), data["p"])
    return answer, record == record_of(data)


def try_close(data):
    record, answer = close(record_of(data), data["p"])
    return answer, record == record_of(data)


def opening_in(data):
    """What a renewal brings beside its record."""
    return {name: data[name] for name in ("W", "g", "a", "marks", "G") if name in data}


def renewal_of(data):
    return renew(record_of(data), **opening_in(data))


def try_renew(data):
    record, answer = renewal_of(data)
    return answer, record == record_of(data)


YEAR_LISTS = ("first", "second", "third", "last", "figures")


def year_of(data):
    """The record, the buffer and the answer of a year case."""
    return year(record_of(data), *(data[name] for name in YEAR_LISTS))


def try_year(data):
    record, figures, answer = year_of(data)
    return answer, (record, figures[answer.count :]) == (record_of(data), data["figures"][answer.count :])


def try_total(data):
    return total(**data), None


def try_share(data):
    return share(**data), None


def try_read(data):
    command, rest = read_command(data["part"])
    return command, rest == data["part"]


def try_sheet(data):
    answer, after = sheet(**data)
    return answer, after == data["out"]


def try_run(data):
    """The refusal in the last line, or all that was printed."""
    printed = run(data["stream"])
    lines = printed.decode("ascii").splitlines()
    if lines and lines[-1].startswith("R "):
        return Refused(int(lines[-1].split()[1])), None
    return printed, None


def try_write(data):
    answer, after = write(**data)
    return answer, after == data["out"]


def try_read_all(data):
    answer, *lists = read_all(**data)
    return answer, lists == [data[name] for name in LISTS]


# generator -> (entry, the refusals it can meet, random cases in a short and a long run)
ENTRIES = {
    "draw_cases": (try_draw, {1, 2, 3, 4, 5, 6}, 60, 3_000),
    "take_all_cases": (try_take_all, {1, 3, 5, 6}, 100, 5_000),
    "take_all_units_cases": (try_take_all_units, {1, 2, 3, 5, 6, 30}, 100, 5_000),
    "kept_draw_cases": (try_kept_draw, {1, 2, 3, 4, 5, 6, 30}, 100, 5_000),
    "kept_poisson_draw_cases": (try_kept_poisson_draw, {1, 2, 3, 4, 5, 6, 30}, 60, 3_000),
    "kept_rotate_cases": (try_kept_rotate, {1, 2, 3, 4, 5, 6, 30, 7, 25, 26, 8}, 30, 1_000),
    "kept_poisson_rotate_cases": (try_kept_poisson_rotate, {1, 2, 3, 4, 5, 6, 30, 7, 25, 26, 8}, 30, 1_000),
    "rotate_cases": (try_rotate, {1, 2, 3, 4, 5, 6, 7, 25, 26, 8}, 30, 1_000),
    "poisson_draw_cases": (try_poisson_draw, {1, 2, 3, 4, 5, 6}, 60, 3_000),
    "poisson_rotate_cases": (try_poisson_rotate, {1, 2, 3, 4, 5, 6, 7, 25, 26, 8}, 30, 1_000),
    "open_cases": (try_open, {9, 10, 11, 12, 13, 21, 22}, 300, 20_000),
    "outside_cases": (try_outside, {9, 10, 11, 12, 13, 21, 22, 29}, 300, 20_000),
    "quarter_cases": (try_quarter, {9, 13, 19, 23, 24}, 300, 20_000),
    "close_cases": (try_close, {9, 13, 19, 21, 22, 23, 24}, 300, 20_000),
    "renew_cases": (try_renew, {9, 10, 11, 13, 19, 21, 22}, 300, 20_000),
    "renew_outside_cases": (try_renew, {9, 10, 11, 13, 19, 21, 22, 29}, 200, 10_000),
    "year_cases": (try_year, {9, 13, 19, 21, 22, 23, 24, 28}, 200, 10_000),
    "total_cases": (try_total, {14}, 300, 20_000),
    "sample_cases": (try_share, {31}, 300, 20_000),
    "reader_cases": (try_read, {15, 16, 17}, 300, 20_000),
    "word_cases": (lambda data: (front_word(data["part"]), None), {17}, 300, 20_000),
    "sheet_cases": (try_sheet, {32}, 300, 20_000),
    "stream_cases": (try_run, STREAM_REFUSALS, 20, 500),
    "write_cases": (try_write, {15, 16, 27}, 100, 5_000),
    "read_all_cases": (try_read_all, {6, 15, 16, 17}, 60, 2_000),
}


def refusal_in(answer):
    """The number of a refusal, 0 for anything else."""
    return answer.number if isinstance(answer, Refused) else 0


def test_refusals(t):
    """Each case meets what it intends; each number of each entry is met; a refusal changes nothing."""
    for name, (entry, numbers, short, long) in ENTRIES.items():
        met = set()
        for case in generate.GENERATORS[name](t.seed, t.count(short, long)):
            before = deepcopy(case.data)
            answer, untouched = entry(case.data)
            t.check(case.data == before, "what was handed in is not written to", case)
            found = refusal_in(answer)
            met.add(found)
            if case.intends is not None:
                t.check(found == case.intends, f"answers {found}, {case.intends} is due", case)
            if found and untouched is not None:
                t.check(untouched, "a refusal changes nothing", case)
        t.check(met - {0} == numbers, f"{name} meets {sorted(met - {0})} of {sorted(numbers)}")
        t.check(0 in met, f"{name} has accepted cases")


def test_limits_have_both_sides(t):
    """Beside each case beyond a limit stands one within it that differs in its answer."""
    for name, (_, numbers, _, _) in ENTRIES.items():
        fixed = list(generate.GENERATORS[name](t.seed, 0))
        sides = {case.what: case.intends for case in fixed}
        beyond = {what: n for what, n in sides.items() if what.endswith(": beyond")}
        for what, number in beyond.items():
            within = sides.get(what.replace(": beyond", ": within"))
            t.check(within not in (None, number), f"{name}, {what}: {within} within, {number} beyond")
        lacking = numbers - set(beyond.values())
        t.check(not lacking, f"{name}: limits for {sorted(lacking)} are missing")


# Generators


def test_generators_repeat(t):
    for name, generator in generate.GENERATORS.items():
        first = list(islice(generator(t.seed, 3), 400))
        t.check(first == list(islice(generator(t.seed, 3), 400)), f"{name}: one seed, one list")
        t.check(first == list(islice(generator(t.seed, 4), len(first))), f"{name}: a longer run begins alike")
        last = first[-1]
        t.check(generate.again(name, t.seed, last.number) == last, f"{name}: a case made again")
        other = list(generator(t.seed + 1, 3))
        t.check([case.data for case in first] != [case.data for case in other], f"{name}: seeds differ")


WIDE = {"turnovers", "previous_rest", "out_weights", "W", "weights", "index", "closes", "links", "indices", "count", "interviews", "strengths", "minima", "amounts", "figures"}
WIDE_START = ("open_cases", "outside_cases", "chain_cases", "outside_chain_cases", "year_chain_cases", "panels_cases", "load_cases")


def widest(data, name):
    """The largest number of an argument that must fit a machine word."""
    value = data[name]
    if name == "calls":
        lists = [q for kind, p in value for q in (p if kind == "year" else [p["a"]] if kind == "renew" else [p])]
        return max((p for relatives in lists for p in relatives), default=0)
    if isinstance(value, (list, bytes)):
        return max(value, default=0)
    return value


def test_numbers_fit_the_machine(t):
    for name, generator in generate.GENERATORS.items():
        if name in ("stream_cases", "reader_cases", "many_draw_cases", "large_draw_cases", "word_cases", "sheet_cases"):
            continue
        for case in generator(t.seed, 20):
            for argument in case.data:
                wide = argument in WIDE or (argument == "start" and name in WIDE_START)
                top = generate.U64 if wide else generate.U32
                value = widest(case.data, argument)
                t.check(0 <= value <= top, f"{argument} holds {value}", case)


# Take-all and draw


def group_places(data):
    """Places marked by the take-all entry."""
    _, marks = take_all_entry(data["turnovers"], data["z"], [0] * len(data["turnovers"]))
    return {i for i, mark in enumerate(marks) if mark == 1}


def law_of_take_all(t, case):
    """The next largest unit fails the test at q, and no smaller q has that."""
    turnovers, z = case.data["turnovers"], case.data["z"]
    falling = sorted(turnovers, reverse=True)
    found = take_all(turnovers, z)
    if found.q == z:
        t.check((found.n, found.X, len(turnovers)) == (0, 0, z), "cut-off if z is all units", case)
    else:
        t.check(len(turnovers) > z, "no cut-off if units are left", case)
        t.check((found.n, found.X) == (z - found.q, sum(falling[found.q :])), "n and X", case)
        holding = [i for i, turnover in enumerate(turnovers) if found.n * turnover >= found.X]
        t.check(set(holding) == found.group, "exactly the group satisfies the test", case)
    for q in range(found.q):
        rest = sum(falling[q:])
        t.check((z - q) * falling[q] >= rest, f"q = {q} is too small", case)
    t.check(sorted(turnovers[i] for i in found.group) == sorted(falling[: found.q]), "the q largest", case)


def test_take_all_laws(t):
    for case in generate.take_all_cases(t.seed, t.count(400, 20_000)):
        if case.intends == 0:
            law_of_take_all(t, case)


def test_take_all_entry(t):
    for case in generate.take_all_cases(t.seed + 1, t.count(200, 5_000)):
        if case.intends != 0:
            continue
        answer, marks = take_all_entry(**case.data)
        units = len(case.data["turnovers"])
        found = take_all(case.data["turnovers"], case.data["z"])
        t.check(answer == Taken(found.q, found.n, found.X), "q, n and X", case)
        t.check([i for i in range(units) if marks[i] == 1] == sorted(found.group), "marks", case)
        t.check(set(marks[:units]) <= {0, 1}, "a mark is 0 or 1", case)
        t.check(marks[units:] == case.data["out_marks"][units:], "places beyond the units stay", case)


def comes_before(data, n, X, one, two):
    """Has unit `one` the smaller key, or the same key and the lower number? In whole numbers."""
    sides = []
    for i in (one, two):
        r = (data["randoms"][i] - data["start"]) % 1_000_000
        turnover = data["turnovers"][i]
        sides.append((r * (X - n * turnover), (1_000_000 - r) * turnover))
    (a, b), (c, d) = sides
    return a * d < c * b or (a * d == c * b and data["numbers"][one] < data["numbers"][two])


def law_of_draw(t, case):
    """A rising panel of the group and the n units that come before all others, with their W."""
    data, z = case.data, case.data["z"]
    answer, numbers, weights = draw(**data)
    t.check(isinstance(answer, Drawn), f"accepted, not {answer}", case)
    panel = numbers[:z]
    t.check(panel == sorted(set(panel)) and set(panel) <= set(data["numbers"]), "rising, of the frame", case)
    t.check(numbers[z:] == data["out_numbers"][z:], "numbers beyond z stay", case)
    t.check(weights[z:] == data["out_weights"][z:], "weights beyond z stay", case)
    places = [data["numbers"].index(number) for number in panel]
    group = group_places(data)
    taken = [i for i in places if i not in group]
    t.check(group <= set(places) and len(taken) == answer.n, "the group and n others", case)
    # The total weight is n times all turnover: X for each of n, n x turnover for the group.
    whole = sum(data["turnovers"]) * (answer.n or 1)
    t.check(sum(weights[:z]) == whole, "the weights add to n x the total turnover", case)
    for i, weight in zip(places, weights):
        its = data["turnovers"][i] * (answer.n or 1)
        t.check(weight == (its if i in group else answer.X), "W of a unit", case)
    left = [i for i in range(len(data["numbers"])) if i not in places]
    if taken and left:
        first = left[0]
        for i in left:
            first = i if comes_before(data, answer.n, answer.X, i, first) else first
        before = all(comes_before(data, answer.n, answer.X, i, first) for i in taken)
        t.check(before, "the sampled come before all that are left", case)


def test_draw_laws(t):
    for case in generate.draw_cases(t.seed, t.count(300, 10_000)):
        if case.intends == 0:
            law_of_draw(t, case)


def test_large_draws(t):
    for case in generate.large_draw_cases(t.seed, t.count(2, 20)):
        law_of_draw(t, case)


def test_ties_decide(t):
    """Among the tie cases both outcomes occur, and a draw in doubles gets some wrong."""
    wrong = 0
    picked = set()
    for case in generate.draw_cases(t.seed, 0):
        if case.what != "equal or nearly equal keys":
            continue
        picked.add(draw(**case.data)[1][0])
        total_turnover = sum(case.data["turnovers"])
        odds = []
        for turnover, random in zip(case.data["turnovers"], case.data["randoms"]):
            r, share = random / 1_000_000, turnover / total_turnover
            odds.append(r / (1 - r) / (share / (1 - share)))
        in_doubles = case.data["numbers"][odds.index(min(odds))]
        wrong += in_doubles != draw(**case.data)[1][0]
    t.check(picked == {5, 6}, "the first and the second are each drawn", picked)
    t.check(wrong > 0, "doubles would draw another unit", wrong)


# Order sampling: U is uniform, λ the inclusion probability n × turnover / X, and the n smallest ranking variables are taken
# (R's package `sampling`, `UPopips`, has these two types under these names).
RANKING = {
    "uniform": lambda U, share: U / share,
    "pareto": lambda U, share: U / (1 - U) / (share / (1 - share)),
}


def order_sample(data, group, n, X, kind):
    """The unit numbers of an order sample of this type; equal variables by lower number."""
    variables = []
    for i, number in enumerate(data["numbers"]):
        if i not in group:
            U = Fraction((data["randoms"][i] - data["start"]) % 1_000_000, 1_000_000)
            variables.append((RANKING[kind](U, Fraction(n * data["turnovers"][i], X)), number))
    return {number for _, number in sorted(variables)[:n]}


def test_order_sampling(t):
    """A draw by either key is the order sample of its type, take-all units added."""
    unlike = 0
    for case in generate.poisson_draw_cases(t.seed, t.count(200, 10_000)):
        if case.intends != 0 or len(case.data["numbers"]) > 1_000:
            continue
        panels = []
        group = group_places(case.data)
        for kind, key in (("uniform", poisson_key), ("pareto", pareto_key)):
            answer, numbers, _ = draw(**case.data, key=key)
            panels.append(set(numbers[: case.data["z"]]))
            expected = order_sample(case.data, group, answer.n, answer.X, kind) if answer.n else set()
            t.check(panels[-1] == expected | {case.data["numbers"][i] for i in group}, f"an order sample of the {kind} type", case)
        unlike += panels[0] != panels[1]
    t.check(unlike > 20, "the two draws often differ", unlike)


def test_poisson_worked(t):
    """Document 02, [8]: whole parts do not decide; the two keys draw and rotate unlike."""
    draws = (
        (([1, 2, 3], [1_000_000, 900_000, 800_000], [900_000, 500_000, 300_000]), 1, [3], [2_700_000]),
        (([1, 2, 3], [1_500_001, 3, 1_500_002], [999_998, 2, 999_999]), 1, [1], [3_000_006]),
        (([1, 2, 3, 4], [50, 20, 50, 20], [400_000, 700_000, 0, 100_000]), 2, [3, 4], [140, 140]),
    )
    for lists, z, panel, weights in draws:
        told = draw(*lists, z, 0, [0] * z, [0] * z, key=poisson_key)[1:]
        t.check(told == (panel, weights), "the worked draw", told)
    four = draws[-1][0]
    t.check(draw(*four, 2, 0, [0] * 2, [0] * 2)[1] == [1, 3], "the Pareto draw")
    for key, k, leaver in ((poisson_key, 0, 1), (pareto_key, 1, 3)):
        told = rotate(*four, 2, 0, [1, 3], 500, 0, 0, [], [0, 7], key=key)
        t.check(told == (Rotated(k, 1_000 * k, 1), [leaver, 7]), "the worked rotation", told)


# Rotation


def drawn_under(data, start):
    """The panel of a draw from this frame under a start."""
    z = data["z"]
    frame = (data["numbers"], data["turnovers"], data["randoms"])
    return set(draw(*frame, z, start, [0] * z, [0] * z)[1])


def birth_joins(data, place):
    """A birth's chance of having been drawn under the old start, n' x turnover / X', is over its shifted number's share."""
    chance = data["previous_n"] * data["turnovers"][place]
    shifted = (data["randoms"][place] - data["old_start"]) % 1_000_000
    return data["previous_rest"] > 0 and Fraction(chance, data["previous_rest"]) > Fraction(shifted, 1_000_000)


def members_of(data):
    """Old panel units in the frame and not take-all now, and the births that join, each once, by number."""
    group = {data["numbers"][i] for i in group_places(data)}
    joined = {n for i, n in enumerate(data["numbers"]) if n in data["births"] and birth_joins(data, i)}
    return sorted(n for n in joined | set(data["old_panel"]) if n in data["numbers"] and n not in group)


def leavers_under(data, k):
    """Members that a draw under step k lacks."""
    panel = drawn_under(data, (data["old_start"] + 1_000 * k) % 1_000_000)
    return [number for number in members_of(data) if number not in panel]


def steps_to_try(t, k):
    """All steps before k in a long run, else the one before it and a few others."""
    return range(k) if t.long else sorted({*range(0, k, max(1, k // 6)), k - 1} - {-1})


def law_of_rotation(t, case):
    """A draw under the new start lacks exactly the leavers, which stand in order, and no step before it suffices."""
    data = case.data
    answer, buffer = rotate(**data)
    members = len(members_of(data))
    enough = min(count for count in range(members + 1) if 1_000 * count >= data["f"] * members)
    k = 1_000
    if isinstance(answer, Rotated):
        k = answer.k
        t.check(answer.new_start == (data["old_start"] + 1_000 * k) % 1_000_000, "the new start", case)
        leavers = buffer[: answer.count]
        t.check(sorted(leavers) == leavers_under(data, k), "the draw lacks exactly the leavers", case)
        t.check(answer.count >= enough, "as many as required", case)
        t.check(buffer[answer.count :] == data["out_leavers"][answer.count :], "places beyond their count stay", case)
        turnover = dict(zip(data["numbers"], data["turnovers"]))
        for one, next_one in zip(leavers, leavers[1:]):
            falls = turnover[one] > turnover[next_one] or turnover[one] == turnover[next_one] and one < next_one
            t.check(falls, "by falling turnover, equal turnovers by lower unit number", case)
    for earlier in steps_to_try(t, k):
        short = len(leavers_under(data, earlier)) < enough
        t.check(short, f"step {earlier} does not suffice, {k} is answered", case)
    return k


def test_rotation_laws(t):
    steps = set()
    for case in generate.rotate_cases(t.seed, t.count(120, 2_000)):
        if case.intends in (0, 8, None) and len(case.data["numbers"]) < 1_000:
            steps.add(law_of_rotation(t, case))
    t.check({0, 999, 1_000} <= steps and len(steps) > 20, "steps of all kinds occur", sorted(steps))


def test_leavers_in_order(t):
    """Document 02's worked case: units 2 and 4 have one turnover, the largest."""
    lists = ([1, 2, 3, 4, 5, 6], [10, 30, 20, 30, 25, 15], [100_000, 50_000, 150_000, 20_000, 900_000, 950_000])
    answer, leavers = rotate(*lists, 1, 0, [1, 2, 3, 4], 1_000, 0, 0, [], [0] * 6)
    t.check(answer == Rotated(151, 151_000, 4), "the worked step", answer)
    t.check(leavers == [2, 4, 3, 1, 0, 0], "the worked leavers", leavers)


def test_births(t):
    """Document 02's births at their borders, with the answers that were reckoned by hand."""
    for (_, what, data), (told, leavers) in zip(worked_births(), WORKED_ANSWERS):
        wanted = Refused(told) if isinstance(told, int) else Rotated(*told)
        t.check(rotate(**data) == (wanted, leavers), what, rotate(**data))


# Open, quarter, close


def test_open_laws(t):
    for case in generate.open_cases(t.seed, t.count(300, 10_000)):
        if case.intends != 0:
            continue
        W, g, a = case.data["W"], case.data["g"], case.data["a"]
        record = open_chain(**case.data)
        t.check((record.units, record.index, record.closes, record.links) == (len(W), case.data["start"], 0, 0), "head", case)
        t.check(len(record.weights) == 100 and not any(record.weights[len(W) :]), "0 beyond the units", case)
        for i in range(len(W)):
            u = math.floor(Fraction(W[i] * g[i], 10_000))
            v = math.floor(Fraction(u * a[i], 100_000)) if g[i] else 0
            t.check(record.weights[i] == v, f"weight {i}", case)


def test_outside_worked(t):
    """Document 02's worked openings with G, weight by weight."""
    for what, ((W, g, a, marks, G), weights) in OUTSIDE_WORKED.items():
        record = open_outside(W, g, a, 10**9, marks, G)
        t.check(record.weights == weights + [0] * (100 - len(weights)), what, record)


def test_outside_laws(t):
    """With no sampled unit the opening is the one without G; a take-all unit keeps its v; sampled u add to no more than the inner floor."""
    for case in generate.outside_cases(t.seed, t.count(300, 10_000)):
        W, g, a, start, marks, G = (case.data[name] for name in ("W", "g", "a", "start", "marks", "G"))
        answer = open_outside(**case.data)
        if len(marks) == len(W) and not any(marks):
            t.check(answer == open_chain(W, g, a, start), "no sampled unit: the opening without G", case)
        if isinstance(answer, Refused):
            continue
        for i in range(len(W)):
            if not marks[i]:
                u = math.floor(Fraction(W[i] * g[i], 10_000))
                t.check(answer.weights[i] == math.floor(Fraction(u * a[i], 100_000)), f"take-all unit {i}", case)
        if any(marks):
            u = shared_weights(W, g, marks, G)
            t.check(sum(u[i] for i in range(len(W)) if marks[i]) <= inner_floor(W, marks, G), "the sampled u", case)


def law_of_calls(t, case):
    """Quarter and close give one F; a close moves C, v and the count, and nothing else."""
    record, p = record_of(case.data), case.data["p"]
    held, said = quarter(record, p)
    after, answer = close(record, p)
    V = sum(record.weights[: len(p)])
    L = math.floor(Fraction(sum(v * r for v, r in zip(record.weights, p)) * 1_000, V))
    F = math.floor(Fraction(record.index * L, 100_000_000))
    t.check(said == Figure(F) and held == record, "a quarter answers F and leaves the record", case)
    t.check(answer == Figure(F), "a close answers the same F", case)
    t.check((after.units, after.index, after.closes, after.links) == (len(p), F, record.closes + 1, record.links + 1), "head", case)
    t.check(after.weights[len(p) :] == record.weights[len(p) :], "places beyond the units stay", case)
    for i, relative in enumerate(p):
        v = math.floor(record.weights[i] * Fraction(relative, 100_000))
        t.check(after.weights[i] == v, f"weight {i} after a close", case)


def test_call_laws(t):
    for case in generate.close_cases(t.seed, t.count(300, 10_000)):
        if case.intends == 0:
            law_of_calls(t, case)


def test_renewal_laws(t):
    """The opening at the record's C, but for its links; the record that a renewal leaves can be renewed again."""
    for generator in (generate.renew_cases, generate.renew_outside_cases):
        for case in generator(t.seed, t.count(300, 10_000)):
            record, opening = record_of(case.data), opening_in(case.data)
            after, answer = renew(record, **opening)
            if not isinstance(answer, Renewed):
                continue
            new = (open_outside if "G" in opening else open_chain)(start=record.index, **opening)
            t.check((after.units, after.weights, after.index, after.closes) == (new.units, new.weights, record.index, 0), "the opened record", case)
            t.check(after.links == record.links, "the links go onward", case)
            t.check(renew(after, **opening) == (after, Renewed()), "once more", case)


def test_links(t):
    """Document 02's worked records: 24 by links, a renewal at forty of them, 9 not by the record's length."""
    record = Record(1, [2_000_000] + [0] * 99, 10**9, 0, 39)
    record, answer = close(record, [110_000])
    t.check((answer, record.closes, record.links) == (Figure(1_100_000_000), 1, 40), "the fortieth link", record)
    t.check(close(record, [100_000])[1] == Refused(24), "the next close is 24", record)
    record, answer = renew(Record(1, [2_000_000] + [0] * 99, 10**9, 40, 40), W=[1_000_000, 5_000_000], g=[10_000] * 2, a=[100_000] * 2)
    t.check((answer, record.units, record.closes, record.links) == (Renewed(), 2, 0, 40), "a renewal at forty links", record)
    t.check(quarter(record, [100_000] * 2)[1] == Refused(24), "then a quarter is 24", record)
    t.check(quarter(record, [1] * 2)[1] == Refused(13), "and 13 before it", record)


# A year


def law_of_year(t, case):
    """It equals the four calls made one by one, up to a refused one."""
    record, figures, answer = year_of(case.data)
    held, told = record_of(case.data), []
    for name in YEAR_LISTS[:4]:
        held, said = (close if name == "last" else quarter)(held, case.data[name])
        told.append(said)
        if isinstance(said, Refused):
            break
    made = [said.F for said in told if isinstance(said, Figure)]
    t.check(figures == made + case.data["figures"][len(made) :], "the figures of the accepted calls, and the other places as they were", case)
    t.check(answer.count == len(made), "the count of accepted calls", case)
    t.check(refusal_in(answer) == refusal_in(told[-1]), "the first refusal", case)
    t.check(record == held, "the record that the calls leave", case)


def test_year_laws(t):
    counts = set()
    for case in generate.year_cases(t.seed, t.count(300, 10_000)):
        if len(case.data["figures"]) >= 4:
            law_of_year(t, case)
        answer = year_of(case.data)[2]
        counts.add((refusal_in(answer), answer.count))
    due = {(28, 0), (19, 0), (24, 0), (21, 3), (22, 3), (0, 4)} | {(number, count) for number in (9, 13, 23) for count in range(4)}
    t.check(counts == due, "each refusal at each place that has it", counts ^ due)


# Demand 3


def single_calls(record, kind, p):
    """The calls that this one came to, each with the record after it and its answer: a year is its calls up to a refused one."""
    made = [("quarter", q) for q in p[:3]] + [("close", p[3])] if kind == "year" else [(kind, p)]
    entries = {"close": close, "quarter": quarter, "renew": lambda held, opening: renew(held, **opening)}
    for name, relatives in made:
        record, answer = entries[name](record, relatives)
        yield name, relatives, record, answer
        if isinstance(answer, Refused):
            return


def opened_by(data):
    """The record of a chain's opening, with or without an outside share, and the exact side beside it."""
    opening = {name: value for name, value in data.items() if name != "calls"}
    return (open_outside if "G" in data else open_chain)(**opening), Course(**opening)


def follow(t, case):
    """Make the calls of a chain; hand back each answer, with D and the floors allowed where there is a D."""
    data = case.data
    record, direct = opened_by(data)
    t.check(isinstance(record, Record), "the opening is accepted", case)
    for kind, p in data["calls"]:
        for name, relatives, after, answer in single_calls(record, kind, p):
            if isinstance(answer, Refused):
                t.check(after == record, "a refused call hands the record back", case)
                yield answer, None, None
                continue
            record = after
            if name == "renew":
                direct.renewed(relatives)
                continue
            yield answer, direct.D(relatives), direct.allowed()
            if name == "close":
                direct.closed(relatives)
                t.check(record.links == direct.m - 1, "m counts the accepted closes of all panels", case)


def test_demand_3(t):
    refusals, steps, figures = set(), set(), 0
    for case in generate.chain_cases(t.seed, t.count(3_000, 40_000)):
        for answer, D, allowed in follow(t, case):
            if D is None:
                refusals.add(answer.number)
                continue
            t.check(within_bound(answer.F, D, allowed), f"F = {answer.F}, D = {D}, allowed = {allowed}", case)
            steps.add(allowed)
            figures += 1
    t.check(refusals == {9, 13, 21, 22, 23, 24}, "the chains meet each refusal of a call", refusals)
    t.check(steps == set(range(2, 42)), "figures at each count of closes", steps)
    t.check(figures > 20_000, "many figures", figures)


def test_demand_3_with_years(t):
    """A list with years meets the bound as its single calls do."""
    stopped, figures = 0, 0
    for case in generate.year_chain_cases(t.seed, t.count(600, 10_000)):
        for answer, D, allowed in follow(t, case):
            if D is None:
                stopped += 1
                continue
            t.check(within_bound(answer.F, D, allowed), f"F = {answer.F}, D = {D}, allowed = {allowed}", case)
            figures += 1
    t.check(stopped > 100 and figures > 5_000, "many figures, and refused calls", (stopped, figures))


def test_demand_3_outside(t):
    """The same from openings with an outside share, where m + 2 floors are allowed."""
    refusals, steps, figures = set(), set(), 0
    for case in generate.outside_chain_cases(t.seed, t.count(1_000, 20_000)):
        for answer, D, allowed in follow(t, case):
            if D is None:
                refusals.add(answer.number)
                continue
            t.check(within_bound(answer.F, D, allowed), f"F = {answer.F}, D = {D}, allowed = {allowed}", case)
            steps.add(allowed)
            figures += 1
    t.check(refusals >= {9, 13, 23, 24}, "the chains meet refusals of a call", refusals)
    t.check(steps == set(range(3, 43)), "figures at each count of closes", steps)
    t.check(figures > 5_000, "many figures", figures)


def test_demand_3_through_panels(t):
    """The same through several panels, with and without an outside share, and years among the calls."""
    refusals, most, figures = set(), 0, 0
    for case in generate.panels_cases(t.seed, t.count(1_000, 20_000)):
        for answer, D, allowed in follow(t, case):
            if D is None:
                refusals.add(answer.number)
                continue
            t.check(within_bound(answer.F, D, allowed), f"F = {answer.F}, D = {D}, allowed = {allowed}", case)
            most = max(most, allowed)
            figures += 1
    t.check(refusals == {9, 13, 21, 22, 23, 24}, "the lists meet each refusal of a call or renewal", refusals)
    t.check(most == 80, "forty panels of one close each are allowed 80", most)
    t.check(figures > 10_000, "many figures", figures)


def test_worked_panels(t):
    """Document 02's forty panels need the allowance of each, and a panel without a close has none."""
    ends = {}
    for case in islice(generate.panels_cases(t.seed, 0), 2):
        for answer, D, allowed in follow(t, case):
            ends[case.what] = (answer.F, D, allowed)
    F, D, allowed = ends["forty panels of one close"]
    t.check((F, math.floor(100 * D), allowed) == (1_000_023_600, 100_007_199_571, 80), "F, D and the multiplier", (F, float(D), allowed))
    t.check(within_bound(F, D, 80) and not within_bound(F, D, 41), "m + 1 alone does not cover it", (F, float(D)))
    t.check(ends["a panel without a close"] == (1_260_000_000, 1_260_000_000, 4), "the multiplier 4", ends)


# Both floors of the second weight lose nearly a millionth, and it moves apart from
# the first: the distance is over 11 m D / 10,000,000 with m = 1.
SHARP = ([4_000_000, 7_502_003], [10_000, 1_333], [100_000, 99_999], 4 * 10**8)
SHARP_CALL = [25_000, 400_000]


def test_bound(t):
    """The bound from both sides, in m and in distance."""
    _, answer = quarter(open_chain(*SHARP), SHARP_CALL)
    direct = Direct(*SHARP)
    D = direct.D(SHARP_CALL)
    t.check(within_bound(answer.F, D, direct.allowed()), "m + 1 covers both floors at the open", (answer, D))
    t.check(not within_bound(answer.F, D, direct.m), "m alone does not", (answer, D))
    D = Fraction(10_000_000)
    for F in (D + 22, D - 22):
        t.check(within_bound(F, D, 2), "at the bound", F)
    for F in (D + 22 + Fraction(1, 10**9), D - 23):
        t.check(not within_bound(F, D, 2), "beyond the bound", F)
    t.check(not within_bound(1_063_593_000, 1_063_800_000, 3), "old weights kept fall out of the bound")


def test_hostile_chains(t):
    """Chains made to lose use over four fifths of the bound: with 9 in place of 11 it would not hold."""
    ends = {}
    for case in generate.chain_cases(t.seed, 0):
        for answer, D, allowed in follow(t, case):
            if D is not None:
                used = 10_000_000 * abs(answer.F - D) / (11 * allowed * D)
                t.check(used <= 1, f"F = {answer.F}, D = {D}, allowed = {allowed}", case)
                ends[case.what] = (answer.F, allowed, used)
    below, above = ends["F below D, 36 closes"], ends["F above D, 35 closes"]
    t.check(below[:2] == (1_000_039_184, 41) and above[:2] == (6_810_192_920, 41), "the figures of both at m = 40", (below, above))
    for F, allowed, used in (below, above):
        t.check(used > Fraction(83, 100), "over four fifths of the bound are used", float(used))
        t.check(used * 11 > 9, "a factor of 9 would be too small", float(used))


def test_direct(t):
    """The product of all moves, and no rounding anywhere."""
    direct = Direct([10**9, 10**9, 5], [10_000, 3_333, 0], [100_001, 25_000, 0], 10**9)
    t.check(direct.e == [1_000_010_000, Fraction(10**9 * 3_333 * 25_000, 10**9), 0], "opening e", direct.e)
    for _ in range(3):
        direct.closed([100_001, 99_999, 0])
    first = Fraction(1_000_010_000) * Fraction(100_001, 100_000) ** 3
    t.check(direct.e[0] == first and direct.e[2] == 0, "e after three closes", direct.e)
    opening = 1_000_010_000 + Fraction(10**9 * 3_333 * 25_000, 10**9)
    D = direct.D([100_000, 100_000, 0])
    t.check(D == 10**9 * sum(direct.e) / opening, "E stays the opening sum", D)
    t.check((direct.m, direct.allowed()) == (4, 5), "m and m + 1", (direct.m, direct.allowed()))


def test_forty_closes(t):
    record = open_chain([10**9], [10_000], [100_000], 10**9)
    for number in range(40):
        record, answer = close(record, [100_000])
        t.check(answer == Figure(10**9), f"close {number + 1} is accepted", answer)
    for call in (quarter, close):
        t.check(call(record, [100_000])[1] == Refused(24), "24 after forty", record)
        t.check(call(record, [24_999])[1] == Refused(13), "13 before 24", record)
        t.check(call(record, [])[1] == Refused(9), "9 before 24", record)
    t.check(close(record, [400_000])[1] == Refused(24), "four times is in range", record)


def test_total_laws(t):
    for case in generate.total_cases(t.seed, t.count(300, 10_000)):
        if case.intends != 0:
            continue
        answer = total(**case.data)
        shares, indices = case.data["shares"], case.data["indices"]
        mean = sum(Fraction(share, 10**6) * index for share, index in zip(shares, indices))
        t.check(answer == Total(math.floor(mean)), "the whole part of the mean", case)


# Stream


def encoded(command):
    """The bytes of a command, from its name and operands."""
    octet, widths = next((octet, widths) for octet, (name, widths) in COMMANDS.items() if name == command[0])
    words = [number.to_bytes(width, "big") for number, width in zip(command[1:], widths)]
    return bytes([octet]) + b"".join(words)


def one_at_a_time(interviews, strengths, minima):
    """Who stays if in each pass only the last sector below its minimum leaves, by whole numbers."""
    rest, staying = interviews, list(range(len(strengths)))
    while True:
        total = sum(strengths[i] for i in staying)
        low = [i for i in staying if rest * strengths[i] < minima[i] * total]
        if not low:
            return rest, staying
        rest -= minima[low[-1]]
        staying.remove(low[-1])


def law_of_sample(t, case):
    """The counts add to T, none is below its minimum, and a quota is its whole part and remainder; who leaves does not hang on the order."""
    interviews, strengths, minima = (case.data[name] for name in ("interviews", "strengths", "minima"))
    told = share(**case.data)
    if isinstance(told, Refused):
        return False
    sectors = len(strengths)
    t.check(sum(told.counts) == interviews, "the counts add to T", case)
    t.check(all(least <= count for least, count in zip(minima, told.counts)), "none is below its minimum", case)
    t.check(all(len(values) == 64 and not any(values[sectors:]) for values in told), "0 beyond the sectors", case)
    rest, staying = one_at_a_time(interviews, strengths, minima)
    total = sum(strengths[i] for i in staying)
    for i in range(sectors):
        whole, remainder, count = told.wholes[i], told.remainders[i], told.counts[i]
        if i in staying:
            t.check(whole * total + remainder == rest * strengths[i] and remainder < total, "a quota's parts", case)
            t.check(count in (whole, whole + 1), "the whole part, or one more", case)
        else:
            t.check((count, whole, remainder) == (minima[i], 0, 0), "one that left", case)
    more = [told.counts[i] > told.wholes[i] for i in staying]
    keys = [(-told.remainders[i], i) for i in staying]
    t.check(max([k for k, given in zip(keys, more) if given], default=(-total, -1)) < min([k for k, given in zip(keys, more) if not given], default=(1, 0)), "one more by largest remainder, earlier first", case)
    return True


def test_sample_laws(t):
    accepted = sum(law_of_sample(t, case) for case in generate.sample_cases(t.seed, t.count(400, 20_000)))
    t.check(accepted > 300, "many are accepted", accepted)


def test_reader_laws(t):
    for case in generate.reader_cases(t.seed, t.count(500, 20_000)):
        part = case.data["part"]
        command, rest = read_command(part)
        t.check((command == END) == (part == b""), "the end is where nothing is left", case)
        if isinstance(command, Refused) or command == END:
            continue
        t.check(encoded(command) + rest == part, "command and rest make the part", case)
        if len(part) < 32_768:
            longer = read_command(part + b"\x09")
            t.check(longer == (command, rest + b"\x09"), "more bytes come after the rest", case)


def commands_of(stream):
    """(offset, command) as far as the reader takes the stream."""
    rest = stream
    command, after = read_command(rest)
    while command != END and not isinstance(command, Refused):
        yield len(stream) - len(rest), command
        rest = after
        command, after = read_command(rest)


def law_of_stream(t, case):
    """The offset is where the refused command begins; what comes before it is printed as ever."""
    stream = case.data["stream"]
    if len(stream) > 32_768:
        t.check(run(stream) == b"R 15 0\n", "R 15 0 alone", case)
        return
    lines = run(stream).splitlines(keepends=True)
    t.check(all(line.endswith(b"\n") for line in lines), "each line is ended", case)
    t.check(not any(line.startswith(b"R") for line in lines[:-1]), "nothing after a refusal", case)
    if not lines or not lines[-1].startswith(b"R"):
        more = b"".join(lines) + b"R 16 %d\n" % len(stream)
        t.check(len(stream) == 32_768 or run(stream + b"\x00") == more, "all was read", case)
        return
    number, offset = (int(word) for word in lines[-1].split()[1:])
    commands = list(commands_of(stream))
    if number in (16, 17):
        read = sum(len(encoded(command)) for _, command in commands)
        t.check(offset == read, "16 and 17 stand where the reader stops", case)
    else:
        t.check(offset in [at for at, _ in commands], "a command begins there", case)
    t.check(run(stream[:offset]) == b"".join(lines[:-1]), "without the refused command no refusal", case)


def test_stream_laws(t):
    for case in generate.stream_cases(t.seed, t.count(10, 500)):
        law_of_stream(t, case)


def test_many_draws(t):
    for case in generate.many_draw_cases(t.seed, t.count(1, 2)):
        lines = run(case.data["stream"]).splitlines()
        draws = int(case.what.split()[0])
        t.check(len(lines) == 100 * draws, "100 lines a draw", case)
        t.check(lines[-100:] == lines[:100], "each draw alike", case)


def test_step_changes_nothing_when_refused(t):
    for case in generate.stream_cases(t.seed, 0):
        job = Job()
        if case.intends in (None, 15):
            continue
        for _, command in commands_of(case.data["stream"]):
            before = repr(job)
            job, answer = step(job, command)
            if isinstance(answer, Refused):
                t.check(repr(job) == before, "a refused command leaves the job", case)
                break


def job_after(stream):
    """The job at the end of a stream that is accepted."""
    job = Job()
    for _, command in commands_of(stream):
        job, _ = step(job, command)
    return job


def test_what_a_command_leaves(t):
    """The lists of a job after each kind of command."""
    listing = generate.LISTING
    job = job_after(listing[:91])
    t.check((job.panel, job.shares, job.relatives) == ([11, 13, 15], [10_000] * 3, [0] * 3), "draw", job)
    t.check(job.numbers == [11, 12, 13, 14, 15] and job.chain is None, "the frame stays", job)
    job = job_after(listing[:109])
    t.check(job.relatives == [100_000] * 3, "pending relatives", job)
    job = job_after(listing[:118])
    t.check(job.relatives == [0] * 3 and job.chain.index == 10**9, "an open sets relatives to 0", job)
    waiting = job_after(listing[:118] + b"\x03\x01\x00\x07")
    t.check((waiting.shares, waiting.chain) == ([10_000, 7, 10_000], job.chain), "a share waits", waiting)
    job = job_after(listing[:137])
    t.check(job.relatives == [0] * 3 and job.chain.closes == 1, "a close sets relatives to 0", job)
    job = job_after(listing)
    t.check(job.relatives == [0] * 3 and job.chain.index == 1_062_000_000, "so does a quarter", job)
    job = job_after(listing + listing[85:91])
    t.check(job.chain is None and job.panel == [11, 13, 15], "a draw drops the chain", job)


def test_refused_and_figure_differ(t):
    """An answer is never mistaken for another kind with the same number."""
    t.check(Refused(13) != Figure(13) and Figure(13) != Total(13), "kinds differ")
    t.check(Drawn(1, 2) != (1, 2) and Refused(5) == Refused(5), "values agree")
    t.check(Record(1, [0], 1, 0, 0) != Record(1, [1], 1, 0, 0), "records differ by a weight")
    t.check(Record(1, [7], 1, 0, 0) == Record(1, [7], 1, 0, 0), "records agree by their values")


# Registers


def test_worked_registers(t):
    """The worked texts of document 02's reading, with their offsets."""
    room = ([1], [2], [3])
    for text, offset in (
        (b"1,2,3\n4,5,6\nx", 12),
        (b"18446744073709551617,2,3", 0),
        (b"1,2,3\r", 0),
        (b"1,2,3\n\n", 6),
        (b"1,2,3\n ", 6),
        (b"1,2,3\r\n4,5,6\r\n\r\n", 14),
    ):
        t.check(import_lists(text, *room) == (BadLine(offset=offset), *room), "34 at its offset, nothing written", text)
    t.check(import_lists(b"1,2,3\n4,5,6\n", *room) == (Refused(35), *room), "35, nothing written")
    t.check(import_lists(b"7,8,9", [1, 4], [2, 5], [3, 6]) == (1, [7, 4], [8, 5], [9, 6]), "places beyond stay")
    t.check(import_lists(b"", [], [], []) == (0, [], [], []), "no lines")


def test_register_laws(t):
    """A good text is its units printed; a bad line is the first, and the text before it is good."""
    for case in generate.register_cases(t.seed, t.count(300, 5_000)):
        text = case.data["text"]
        units = units_of(text)
        if isinstance(units, BadLine):
            before = text[: units.offset]
            t.check(not before or before.endswith(b"\n"), "a line begins after a line feed", case)
            t.check(line_number(text, units.offset) == len(units_of(before)) + 1, "all lines before it are good", case)
        else:
            printed = b"".join(b"%d,%d,%d\n" % unit for unit in units)
            t.check(units_of(printed) == units, "the units printed are the same units", case)
            t.check(len(units) == text.count(b"\n") + (text[-1:] not in (b"", b"\n")), "a unit a line", case)
