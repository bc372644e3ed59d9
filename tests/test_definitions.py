"""The definitions of crates/rules against the independent computation.

Every case is computed twice: here by exact integers and fractions, and by the
prover from the definitions. Cases are small, since the prover computes as the
definitions say (a rank is a count); the built code is tested at full size elsewhere.
"""

import random

import definitions
from cases.frames import WORKED_BIRTHS
from cases.kept import worked_lists
from cases.samples import WORKED
from definitions import number_list
from independent import Refused, chain, frame, kept, load, outside, panels, register, sample, sheet, stream, writing
from cases import registers, years
from cases.outsides import outside_cases


def judged(value, given):
    """An answer as the definitions write it: a refusal's number, or what `given` makes of the value."""
    if isinstance(value, Refused):
        return f"Judged.refused {value.number}"
    return f"Judged.given {given(value)}"


def fields(**names):
    """A record as the definitions write it: each field with the value's own name for it."""
    return lambda value: "(record { " + "; ".join(f"{field} = {getattr(value, name)}" for field, name in names.items()) + " })"


def draw_cases(numbers, turnovers, randoms, z, start, room_numbers, room_weights):
    told, after_numbers, after_weights = frame.draw(numbers, turnovers, randoms, z, start, room_numbers, room_weights)
    lists = " ".join(map(number_list, (numbers, turnovers, randoms)))
    rest = f"(frame {lists}) {z} {start} {number_list(room_numbers)} {number_list(room_weights)}"
    yield f"draw_answer {rest}", judged(told, fields(sample_size="n", rest="X"))
    yield f"draw_numbers {rest}", number_list(after_numbers)
    yield f"draw_weights {rest}", number_list(after_weights)


def take_all_cases(turnovers, z, marks):
    told, after = frame.take_all_entry(turnovers, z, marks)
    rest = f"{number_list(turnovers)} {z} {number_list(marks)}"
    yield f"take_all_answer {rest}", judged(told, fields(size="q", sample_size="n", rest="X"))
    yield f"take_all_marks {rest}", number_list(after)


def poisson_draw_cases(numbers, turnovers, randoms, z, start, room_numbers, room_weights):
    rooms = (room_numbers, room_weights)
    _, *after = frame.draw(numbers, turnovers, randoms, z, start, *rooms, key=frame.poisson_key)
    lists = " ".join(map(number_list, (numbers, turnovers, randoms)))
    for name, list_after in zip(("draw_numbers_by", "draw_weights_by"), after):
        rest = f"(frame {lists}) {z} {start} {' '.join(map(number_list, rooms))}"
        yield f"{name} Method.sequential_poisson {rest}", number_list(list_after)


def rotation_text(numbers, turnovers, randoms, z, old, panel, f, room, births):
    """A rotation's arguments as the definitions take them."""
    lists = " ".join(map(number_list, (numbers, turnovers, randoms)))
    n, rest, units = births
    return f"(frame {lists}) {z} {old} {number_list(panel)} {f} (born {n} {rest} {number_list(units)}) {number_list(room)}"


def poisson_rotation_cases(numbers, turnovers, randoms, z, old, panel, f, room, births=(0, 0, [])):
    told, leavers = frame.rotate(numbers, turnovers, randoms, z, old, panel, f, *births, room, key=frame.poisson_key)
    rest = rotation_text(numbers, turnovers, randoms, z, old, panel, f, room, births)
    yield f"rotation_answer_by Method.sequential_poisson {rest}", judged(told, fields(step="k", start="new_start", leaving="count"))
    yield f"rotation_leavers_by Method.sequential_poisson {rest}", number_list(leavers)


def rotation_cases(numbers, turnovers, randoms, z, old, panel, f, room, births=(0, 0, [])):
    told, leavers = frame.rotate(numbers, turnovers, randoms, z, old, panel, f, *births, room)
    rest = rotation_text(numbers, turnovers, randoms, z, old, panel, f, room, births)
    yield f"rotation_answer {rest}", judged(told, fields(step="k", start="new_start", leaving="count"))
    yield f"rotation_leavers {rest}", number_list(leavers)


def keeping_text(threshold, first, second):
    return f"(keeping {threshold} {number_list(first)} {number_list(second)})"


def take_all_units_cases(numbers, turnovers, z, keeping, room):
    told, after = frame.take_all_units(numbers, turnovers, z, *keeping, room)
    rest = f"{number_list(numbers)} {number_list(turnovers)} {z} {keeping_text(*keeping)} {number_list(room)}"
    yield f"take_all_units_answer {rest}", judged(told, fields(size="q", sample_size="n", rest="X"))
    yield f"take_all_units {rest}", number_list(after)


METHODS = (("Method.pareto", frame.pareto_key), ("Method.sequential_poisson", frame.poisson_key))


def kept_draw_cases(lists, z, start, keeping, room_numbers, room_weights):
    text = "(frame " + " ".join(map(number_list, lists)) + ")"
    rest = f"{text} {z} {start} {keeping_text(*keeping)} {number_list(room_numbers)} {number_list(room_weights)}"
    for method, key in METHODS:
        told, numbers, weights = kept.draw(*lists, z, start, *keeping, room_numbers, room_weights, key=key)
        yield f"kept_draw_answer {rest}", judged(told, fields(sample_size="n", rest="X"))
        yield f"kept_draw_numbers {method} {rest}", number_list(numbers)
        yield f"kept_draw_weights {method} {rest}", number_list(weights)


def kept_rotation_cases(lists, z, old, panel, f, births, keeping, room, methods=METHODS):
    n, x, units = births
    text = "(frame " + " ".join(map(number_list, lists)) + ")"
    rest = f"{text} {z} {old} {number_list(panel)} {f} (born {n} {x} {number_list(units)}) {keeping_text(*keeping)} {number_list(room)}"
    for method, key in methods:
        told, leavers = kept.rotate(*lists, z, old, panel, f, n, x, units, *keeping, room, key=key)
        yield f"kept_rotation_answer {method} {rest}", judged(told, fields(step="k", start="new_start", leaving="count"))
        yield f"kept_rotation_leavers {method} {rest}", number_list(leavers)


def frame_refusal_cases(numbers, turnovers, randoms, z, start):
    told = frame.frame_refusal(numbers, turnovers, randoms, z, start)
    lists = " ".join(map(number_list, (numbers, turnovers, randoms)))
    yield f"frame_refusal (frame {lists}) {z} {start}", str(told or 0)


def record_text(record):
    fields = f"weights = {number_list(record.weights)}; units = {record.units}; index = {record.index}; closes = {record.closes}; links = {record.links}"
    return f"(record {{ {fields} }})"


def open_cases(W, g, a, start):
    told = chain.open_chain(W, g, a, start)
    yield f"open_answer {number_list(W)} {number_list(g)} {number_list(a)} {start}", judged(told, record_text)


def panel_text(W, g, a, marks=None, G=None):
    """What an opening brings, with or without an outside share."""
    if marks is None:
        return "(plain " + " ".join(map(number_list, (W, g, a))) + ")"
    return f"(with_domain {G} " + " ".join(map(number_list, (marks, W, g, a))) + ")"


def outside_open_cases(W, g, a, start, marks, G):
    told = outside.open_outside(W, g, a, start, marks, G)
    yield f"panel_answer {panel_text(W, g, a, marks, G)} {start}", judged(told, record_text)


def outside_direct_cases(W, g, a, start, marks, G, closes, p):
    """D after some closes of a panel with an outside share, and what the bound allows."""
    exact, state = outside.OutsideDirect(W, g, a, start, marks, G), f"direct_open {panel_text(W, g, a, marks, G)} {start}"
    yield from exact_cases(exact, state, closes, p)


def call_cases(record, p):
    for name, call in (("quarter", chain.quarter), ("close", chain.close)):
        after, told = call(record, p)
        rest = f"{record_text(record)} (Call.{name} {number_list(p)})"
        yield f"call_answer {rest}", judged(told, lambda value: value.F)
        yield f"after {rest}", record_text(after)


def four_calls(lists):
    return "(four_calls " + " ".join(map(number_list, lists)) + ")"


def year_cases(record, lists, buffer):
    """What a year comes to, and the single calls that it makes."""
    after, figures, told = chain.year(record, *lists, buffer)
    number = told.number if isinstance(told, Refused) else 0
    due = f"refusal = {number}; count = {told.count}; chain = {record_text(after)}; figures = {number_list(figures)}"
    yield f"year_of {record_text(record)} {four_calls(lists)} {number_list(buffer)}", f"record {{ {due} }}"
    made = 0 if number == 28 else told.count + (number != 0)
    names = [f"Call.{name} {number_list(p)}" for name, p in zip(["quarter"] * 3 + ["close"], lists)]
    yield f"year_calls {record_text(record)} {len(buffer)} {four_calls(lists)}", "(" + " ∷ ".join(names[:made] + ["[]"]) + ")"


def renewal_cases(record, **opening):
    after, told = panels.renew(record, **opening)
    rest = f"{record_text(record)} {panel_text(**opening)}"
    yield f"renewal_answer {rest}", judged(told, lambda _: record_text(after))
    yield f"renewal_after {rest}", record_text(after)


def direct_cases(W, g, a, start, closes, p):
    """D after some closes, by cross multiplication with the fraction."""
    exact = chain.Direct(W, g, a, start)
    yield from exact_cases(exact, f"direct_open {panel_text(W, g, a)} {start}", closes, p)


def course_cases(start, opening, moves, p):
    """D and the bound after closes and renewals, each ("close", relatives) or ("renew", an opening)."""
    exact, state = panels.Course(start, **opening), f"direct_open {panel_text(**opening)} {start}"
    for kind, value in moves:
        if kind == "close":
            exact.closed(value)
            state = f"direct_after ({state}) (Call.close {number_list(value)})"
        else:
            exact.renewed(value)
            state = f"direct_renewed ({state}) {panel_text(**value)}"
    yield from exact_cases(exact, state, [], p)


def exact_cases(exact, state, closes, p):
    for q in closes:
        exact.closed(q)
        state = f"direct_after ({state}) (Call.close {number_list(q)})"
    state = f"(direct_after ({state}) (Call.quarter {number_list(p)}))"
    D = exact.D(p)
    yield f"numerator {state} {number_list(p)} * {D.denominator}", f"{D.numerator} * denominator {state} {number_list(p)}"
    yield f"({state}).m", str(exact.m)
    yield f"allowed {state}", str(exact.allowed())


def event_text(name, p, told):
    """What a call came to: its refusal's number, or the call with its figure."""
    if isinstance(told, Refused):
        return f"Event.refused {told.number}"
    if name == "renew":
        return f"Event.renewed {panel_text(**p)}"
    return f"Event.answered (Call.{name} {number_list(p)}) {told.F}"


def single_calls(name, p):
    """The calls that stand for one of a list: a year without room stands for none."""
    if name != "year":
        return [(name, p)]
    room, *lists = p
    return [("quarter", q) for q in lists[:3]] + [("close", lists[3])] if room >= 4 else []


def made_text(name, p):
    if name == "renew":
        return f"Made.renewal {panel_text(**p)}"
    if name != "year":
        return f"Made.call (Call.{name} {number_list(p)})"
    room, *lists = p
    return f"Made.year {room} " + " ".join(map(number_list, lists))


def event_cases(W, g, a, start, calls):
    """What a list of quarters, closes, years and renewals comes to after an open: ("year", (places, four lists)), ("renew", an opening)."""
    record, came = chain.open_chain(W, g, a, start), []
    for name, p in calls:
        for single, relatives in single_calls(name, p):
            record, told = panels.renew(record, **relatives) if single == "renew" else getattr(chain, single)(record, relatives)
            came.append(event_text(single, relatives, told))
            if isinstance(told, Refused):
                break
    listed = " ∷ ".join([made_text(name, p) for name, p in calls] + ["[]"])
    opened = f"open_record (shared {number_list(W)} {number_list(g)}) {number_list(a)} {start}"
    yield f"events ({opened}) ({listed})", "(" + " ∷ ".join(came + ["[]"]) + ")"


def total_cases(shares, indices):
    told = chain.total(shares, indices)
    yield f"total_answer {number_list(shares)} {number_list(indices)}", judged(told, lambda value: value.total)


def command_text(command):
    names = {"unit": "unit", "draw": "draw", "share": "share", "relative": "relative", "open": "opens", "quarter": "quarter", "close": "close"}
    return "(" + " ".join([f"Command.{names[command[0]]}"] + [str(n) for n in command[1:]]) + ")"


def front_text(told):
    return "Front.ended" if told == stream.END else f"(Front.command {command_text(told)})"


def reading_cases(part):
    told, rest = stream.read_command(bytes(part))
    yield f"reading {number_list(part)}", judged(told, front_text)
    yield f"rest_of {number_list(part)}", number_list(rest)


def word_cases(part):
    yield f"word_of {number_list(part)}", judged(stream.front_word(bytes(part)), str)


def load_cases(start, count, *rooms):
    told, *after = load.load(start, count, *rooms)
    rest = f"{start} {count} " + " ".join(map(number_list, rooms))
    yield f"load_answer {rest}", judged(told, str)
    for name, value in zip(("load_numbers", "load_turnovers", "load_randoms"), after):
        yield f"{name} {rest}", number_list(value)


def places(values):
    """A list of the sample's 64 places, short: its front and the zeros behind it."""
    front = max((i + 1 for i, value in enumerate(values) if value), default=0)
    return f"({number_list(values[:front])} ++ replicate {len(values) - front} 0)"


def sample_cases(interviews, strengths, minima):
    told = sample.share(interviews, strengths, minima)
    rest = f"(sharing {interviews} {number_list(strengths)} {number_list(minima)})"
    lists = sample.Shared(*([0] * 64,) * 3) if isinstance(told, Refused) else told
    yield f"sample_refusal {rest}", str(getattr(told, "number", 0))
    for name, value in zip(("sample_counts", "sample_wholes", "sample_remainders"), lists):
        yield f"{name} {rest}", places(value)
def register_answer(told):
    if isinstance(told, register.BadLine):
        return f"Imported.bad_line {told.offset}"
    return "Imported.too_many" if told == Refused(35) else f"Imported.units {told}"


def register_cases(text, *lists):
    told, *after = register.import_lists(text, *lists)
    rest = f"{number_list(text)} " + " ".join(map(number_list, lists))
    yield f"imported {number_list(text)} (room_of {' '.join(map(number_list, lists))})", register_answer(told)
    for name, value in zip(("imported_numbers", "imported_turnovers", "imported_randoms"), after):
        yield f"{name} {rest}", number_list(value)
def whole(number):
    """A signed whole number as the definitions write it."""
    return f"(pos {number})" if number >= 0 else f"(negsuc {-number - 1})"


def sheet_cases(name, new, old, room):
    told, after = sheet.sheet(bytes(name), new, old, bytes(room))
    rest = f"{number_list(name)} {new} {old} {number_list(room)}"
    yield f"sheet_answer {rest}", judged(told, lambda change: f"(record {{ hundredths = {whole(change.c)}; rest = {change.rest} }})")
    yield f"sheet_bytes {rest}", number_list(after)
def six_lists(lists):
    return "(lists " + " ".join(map(number_list, lists)) + ")"


def write_cases(lists, out):
    told, after = writing.write(*lists, bytes(out))
    rest = f"{six_lists(lists)} {number_list(out)}"
    yield f"write_answer {rest}", judged(told, str)
    yield f"write_bytes {rest}", number_list(after)


def read_all_cases(octets, lists):
    told, *after = writing.read_all(bytes(octets), *lists)
    rest = f"{number_list(octets)} {six_lists(lists)}"
    yield f"read_all_answer {rest}", judged(told, str)
    yield f"read_all_lists {rest}", six_lists(after)


def row_cases(row):
    """A row of a known command says the command that its bytes are read as; the other operands count as 0."""
    command, _ = stream.read_command(writing.octets_of(row))
    text = "(row " + " ".join(map(str, row)) + ")"
    yield f"command_in {text}", command_text(command)
    yield f"row_of {command_text(command)}", "row " + " ".join(map(str, writing.row_of(command)))


def output_cases(octets):
    yield f"output {number_list(octets)}", number_list(stream.run(bytes(octets)))


# Generators of small cases. A fault is put in with some chance, several at once too, so that the order of refusals shows.


def faulty(rng, value, *faults):
    return rng.choice(faults) if rng.random() < 0.12 else value


def small_frame(rng, most=5):
    units = rng.randint(1, most)
    numbers = sorted(rng.sample([0, 1, 2, 3, 5, 9, 11, 12, 2**32 - 2, 2**32 - 1], units))
    scale = rng.choice([1, 7, 10**6, 10**11])
    turnovers = [scale * rng.choice([1, 1, 2, 3, 5, 8, 20, 70]) for _ in numbers]
    randoms = [rng.choice([0, 1, 250_000, 500_000, 500_000, 999_998, 999_999, rng.randrange(10**6)]) for _ in numbers]
    if rng.random() < 0.1:
        turnovers[0] += 10**12 - sum(turnovers) if sum(turnovers) < 10**12 else 0
    faults = {
        "numbers": [numbers[:-1], numbers + [2**32 - 1], list(reversed(numbers)), numbers[:1] * units],
        "turnovers": [turnovers[:-1], [0] + turnovers[1:], turnovers[:-1] + [10**12], [10**12 + 1 - (units - 1)] + [1] * (units - 1)],
        "randoms": [randoms[:-1], randoms + [0], [10**6] + randoms[1:]],
    }
    return (
        faulty(rng, numbers, *faults["numbers"]),
        faulty(rng, turnovers, *faults["turnovers"]),
        faulty(rng, randoms, *faults["randoms"]),
    )


def some_start(rng):
    return rng.choice([0, 0, 1, 250_000, 500_000, 500_001, 999_999, rng.randrange(10**6)])


def frame_suite(rng, count):
    for _ in range(count):
        numbers, turnovers, randoms = small_frame(rng)
        z = faulty(rng, rng.randint(1, max(1, len(turnovers))), 0, len(turnovers) + 1, 101)
        start = faulty(rng, some_start(rng), 10**6)
        rooms = [list(range(90, 90 + max(0, z + d))) for d in (faulty(rng, rng.randint(0, 2), -1), faulty(rng, rng.randint(0, 2), -1))]
        yield from draw_cases(numbers, turnovers, randoms, z, start, *rooms)
        yield from poisson_draw_cases(numbers, turnovers, randoms, z, start, *rooms)
        yield from take_all_cases(turnovers, z, [9] * max(0, len(turnovers) + faulty(rng, rng.randint(0, 2), -1)))


def some_births(rng, numbers, turnovers, randoms, old):
    """n', X' and births: X' often where a birth's comparison is equal or one beside it."""
    units = sorted(rng.sample(sorted(set(numbers)), rng.randint(0, len(set(numbers)))))
    units = faulty(rng, units, list(reversed(units)), units + units[-1:], sorted(set(units) | {4}))
    n = faulty(rng, rng.choice([0, 1, 2, 3, 100]), 101)
    rest = rng.choice([0 if n == 0 else 1, sum(turnovers), 10**12])
    if units and units[0] in numbers and rng.random() < 0.6:
        place = min(numbers.index(units[0]), len(turnovers) - 1, len(randoms) - 1)
        r = (randoms[place] - old) % 10**6
        rest = max(1, min(10**12, 10**6 * n * turnovers[place] // max(1, r) + rng.randint(-1, 1)))
    return n, faulty(rng, rest, 0, 10**12 + 1), units


def rotation_suite(rng, count):
    for _ in range(count):
        numbers, turnovers, randoms = small_frame(rng, 4)
        z = faulty(rng, rng.randint(1, max(1, len(turnovers))), 0, len(turnovers) + 1)
        old = faulty(rng, some_start(rng), 10**6)
        panel = sorted(rng.sample(sorted(set(numbers) | {4, 10}), rng.randint(0, min(4, len(set(numbers)) + 1))))
        panel = faulty(rng, panel, list(reversed(panel)), panel + panel[-1:], list(range(101)))
        f = faulty(rng, rng.choice([0, 1, 250, 500, 501, 999, 1000]), 1001)
        births = some_births(rng, numbers, turnovers, randoms, old)
        room = list(range(70, 70 + max(0, len(panel) + len(births[2]) + faulty(rng, rng.randint(0, 2), -1))))
        yield from rotation_cases(numbers, turnovers, randoms, z, old, panel, f, room, births)
        yield from poisson_rotation_cases(numbers, turnovers, randoms, z, old, panel, f, room, births)


def some_keeping(rng, numbers, turnovers):
    """γ often at a unit's border, and two lists of units, dead ones among them."""
    units = sorted(set(numbers) | {4, 10})
    first, second = (sorted(rng.sample(units, rng.randint(0, len(units)))) for _ in range(2))
    border = 1_000 * rng.randint(1, 3) * rng.choice(turnovers) // max(1, sum(turnovers) // rng.randint(1, 4)) + rng.randint(-1, 1)
    threshold = rng.choice([min(max(border, 1), 1_000), 1, 800, 1_000])
    return (
        faulty(rng, threshold, 0, 1_001),
        faulty(rng, first, list(reversed(units)), list(range(101))),
        faulty(rng, second, [5, 5], list(range(101))),
    )


def kept_suite(rng, count):
    """Previous lists at each border, by either key; a rotation also with births."""
    for _ in range(count):
        lists = small_frame(rng)
        numbers, turnovers, randoms = lists
        z = faulty(rng, rng.randint(1, max(1, len(turnovers))), 0, len(turnovers) + 1)
        start = faulty(rng, some_start(rng), 10**6)
        keeping = some_keeping(rng, numbers, turnovers)
        room = list(range(80, 80 + max(0, z + faulty(rng, rng.randint(0, 2), -1))))
        yield from take_all_units_cases(numbers, turnovers, z, keeping, room)
        yield from kept_draw_cases(lists, z, start, keeping, room, list(range(90, 90 + z)))
        panel = sorted(rng.sample(sorted(set(numbers)), rng.randint(0, len(set(numbers)))))
        panel = faulty(rng, panel, list(reversed(panel)), panel + panel[-1:])
        units = sorted(rng.sample(sorted(set(numbers)), rng.randint(0, len(set(numbers)))))
        births = (faulty(rng, rng.choice([1, 2, 100]), 101), rng.choice([1, sum(turnovers), 10**12]), faulty(rng, units, [4]))
        room = list(range(70, 70 + max(0, len(panel) + len(births[2]) + faulty(rng, rng.randint(0, 2), -1))))
        method = METHODS[rng.randrange(2)]
        yield from kept_rotation_cases(lists, z, start, panel, rng.choice([0, 1, 500, 1_000]), births, keeping, room, [method])
    hundred, more = list(range(100)), list(range(101))
    for keeping in ((1, hundred, []), (1_000, [], hundred), (800, more, []), (800, [], more), (0, [], []), (1_001, [], [])):
        yield from take_all_units_cases([1, 2, 3], [12, 2, 1], 1, keeping, [7])  # 30 at each limit from both sides
    for what, data in worked_lists():
        lists = (data["numbers"], data["turnovers"], data["randoms"])
        yield from kept_draw_cases(lists, data["z"], 0, (data["threshold"], data["first"], data["second"]), [7] * 4, [8] * 4)


def open_suite(rng, count):
    for _ in range(count):
        units = rng.randint(1, 4)
        W = [rng.choice([10**6, 10**8, 400_000_000, 10**9 + 7, 4 * 10**12]) for _ in range(units)]
        g = [rng.choice([10_000, 10_000, 5_000, 9_999, 1, 0]) for _ in range(units)]
        a = [rng.choice([100_000, 25_000, 400_000, 123_457]) if share else 0 for share in g]
        start = faulty(rng, rng.choice([10**8, 10**9, 10**10]), 10**8 - 1, 10**10 + 1)
        W = faulty(rng, W, W[:-1], [0] + W[1:], W[:-1] + [10**13 - sum(W[:-1])], W[:-1] + [10**13 + 1 - sum(W[:-1])])
        g = faulty(rng, g, g[:-1], [10_001] + g[1:], [0] * units)
        a = faulty(rng, a, a[:-1], [24_999] + a[1:], [400_001] + a[1:], [0] + a[1:], [1] + a[1:])
        yield from open_cases(W, g, a, start)


def outside_suite(rng, count):
    """Document 02's worked openings with G, the orders and limits, random ones, and the exact side."""
    for case in outside_cases(rng.randrange(1_000), 0):
        if len(case.data["W"]) <= 6:
            yield from outside_open_cases(**case.data)
    for _ in range(count):
        units = rng.randint(1, 4)
        X = rng.choice([2 * 10**6, 10**8, 10**9 + 7, 2 * 10**12])
        marks = [rng.choice([0, 1, 1, 9]) for _ in range(units)]
        W = [X if mark else rng.choice([10**6, 10**8, 10**9 + 7]) for mark in marks]
        g = [rng.choice([10_000, 10_000, 5_000, 9_999, 1, 0]) for _ in range(units)]
        a = [rng.choice([100_000, 25_000, 400_000, 123_457]) if share else 0 for share in g]
        G = faulty(rng, rng.choice([1, 3_333, 9_999, 10_000]), 0, 10_001)
        marks = faulty(rng, marks, marks[:-1], marks + [0], [0] * units, [1] * units)
        start = faulty(rng, 10**9, 10**8 - 1)
        a = faulty(rng, a, a[:-1], [24_999] + a[1:], [1] + a[1:])
        yield from outside_open_cases(W, g, a, start, marks, G)
    for _ in range(count // 3):
        marks = [0] + [rng.choice([0, 1, 5]) for _ in range(rng.randint(0, 2))]
        X = rng.randrange(10**6, 10**12)
        g = [10_000] + [rng.choice([1, 9_999, 10_000]) for _ in marks[1:]]
        a, p, *closes = [[rng.randrange(25_000, 400_001) for _ in g] for _ in range(2 + rng.randint(0, 2))]
        W = [X if mark else rng.randrange(10**6, 10**12) for mark in marks]
        yield from outside_direct_cases(W, g, a, rng.randrange(10**8, 10**10 + 1), marks, rng.randrange(1, 10_001), closes, p)


def call_suite(rng, count):
    for _ in range(count):
        units = rng.randint(1, 4)
        v = [rng.choice([0, 10**6, 10**6 + 1, 4 * 10**6, 4 * 10**6 - 1, 10**9, 2 * 10**12]) for _ in range(units)]
        p = [rng.choice([100_000, 25_000, 400_000, 99_999, 123_457]) if weight else 0 for weight in v]
        beyond = [rng.randrange(50) for _ in range(rng.randint(0, 2))]
        v = faulty(rng, v, [999_999] + v[1:], [0] * units, [10**13 - sum(v[1:])] + v[1:], [10**13 + 1 - sum(v[1:])] + v[1:], [1] + v[1:])
        index = faulty(rng, rng.choice([10**8, 10**9, 10**10, 4 * 10**8, 399_999_999]), 10**8 - 1, 10**10 + 1)
        closes = faulty(rng, rng.choice([0, 1, 39]), 40, 41)
        links = faulty(rng, rng.choice([closes, 39]), closes - 1 if closes else 0, 40, 41)
        count_units = faulty(rng, units, 0, 101)
        p = faulty(rng, p, p[:-1], p + [100_000], [24_999] + p[1:], [400_001] + p[1:], [0] + p[1:], [1] + p[1:])
        yield from call_cases(chain.Record(count_units, v + beyond, index, closes, links), p)


def renewal_suite(rng, count):
    """The worked records and faults of both sides; a renewal at forty links, and one whose lists have another length than the record."""
    two = {"W": [1_000_000, 5_000_000], "g": [10_000] * 2, "a": [100_000] * 2}
    for closes, links in ((40, 40), (0, 40), (3, 3), (3, 2), (41, 41), (0, 41), (41, 40)):
        for opening in (two, {"W": [], "g": [], "a": []}, two | {"marks": [0, 1], "G": 9_000}, two | {"marks": [1], "G": 9_000}):
            yield from renewal_cases(chain.Record(1, [2_000_000], 10**9, closes, links), **opening)
    for index in (10**8 - 1, 10**8, 10**10, 10**10 + 1):
        yield from renewal_cases(chain.Record(1, [2_000_000], index, 0, 0), **two)
    for _ in range(count):
        v = [rng.choice([0, 10**6, 4 * 10**6]) for _ in range(rng.randint(1, 3))]
        v = faulty(rng, [10**6] + v, [999_999] + v, [0, 0])
        closes = rng.choice([0, 1, 40])
        record = chain.Record(len(v), v + [7] * rng.randint(0, 2), rng.choice([10**8, 10**9, 10**10]), closes, faulty(rng, 40, closes - 1 if closes else 41))
        units = rng.randint(1, 3)
        W = [rng.choice([10**6, 10**8, 4 * 10**12]) for _ in range(units)]
        g = [10_000] + [rng.choice([10_000, 5_000, 0]) for _ in range(units - 1)]
        a = [rng.choice([100_000, 25_000, 400_000]) if share else 0 for share in g]
        W = faulty(rng, W, W[:-1], [0] + W[1:])
        g = faulty(rng, g, g[:-1], [10_001] + g[1:], [0] * units)
        a = faulty(rng, a, a[:-1], [24_999] + a[1:], [0] + a[1:])
        outside_share = {"marks": [rng.choice([0, 1]) for _ in W], "G": faulty(rng, rng.choice([1, 5_000, 10_000]), 0, 10_001)}
        yield from renewal_cases(record, W=W, g=g, a=a, **(outside_share if rng.random() < 0.4 else {}))


def some_opening(rng):
    """An opening of a few units, with or without an outside share, whose exact weights are positive."""
    units = rng.randint(1, 3)
    opening = {
        "W": [rng.randrange(10**6, 10**11)] * units,
        "g": [10_000] + [rng.choice([0, 1, 10_000]) for _ in range(units - 1)],
    }
    opening["a"] = moved(rng, opening)
    if rng.random() < 0.4:
        opening |= {"marks": [rng.choice([0, 1])] + [rng.choice([0, 7]) for _ in range(units - 1)], "G": rng.randrange(1, 10_001)}
        if sum(share for share, mark in zip(opening["g"], opening["marks"]) if mark) == 0:
            opening["marks"] = [0] * units
    return opening


def moved(rng, opening):
    return [rng.randrange(25_000, 400_001) if share else 0 for share in opening["g"]]


def course_suite(rng, count):
    """Closes and renewals in any order: panels left with closes and without, and both kinds of opening."""
    for _ in range(count):
        first = present = some_opening(rng)
        moves = []
        for _ in range(rng.randint(0, 5)):
            if rng.random() < 0.5:
                moves.append(("close", moved(rng, present)))
            else:
                present = some_opening(rng)
                moves.append(("renew", present))
        yield from course_cases(rng.randrange(10**8, 10**10 + 1), first, moves, moved(rng, present))


def direct_suite(rng, count):
    for _ in range(count):
        units = rng.randint(1, 3)
        W = [rng.randrange(10**6, 10**12) for _ in range(units)]
        g = [10_000] + [rng.choice([0, 1, 10_000]) for _ in range(units - 1)]
        a, p, *closes = [[rng.randrange(25_000, 400_001) if share else 0 for share in g] for _ in range(2 + rng.randint(0, 3))]
        yield from direct_cases(W, g, a, rng.randrange(10**8, 10**10 + 1), closes, p)


def year_suite(rng, count):
    """Years of one or two units, a fault at a place of some, and buffers of three places and more."""
    for _ in range(count):
        v = [rng.choice([10**6, 2 * 10**6, 10**9]) for _ in range(rng.randint(1, 2))]
        lists = [[rng.choice([100_000, 101_000, 50_000, 400_000]) for _ in v] for _ in range(4)]
        if rng.random() < 0.5:
            place = rng.randrange(4)
            lists[place] = faulty(rng, lists[place], lists[place][:-1], lists[place] + [100_000], [24_999] + lists[place][1:])
        index = faulty(rng, rng.choice([10**9, 10**10, 10**8]), 10**8 - 1)
        closes = faulty(rng, rng.choice([0, 39]), 40, 41)
        record = chain.Record(len(v), v + [5] * rng.randint(0, 1), index, closes, faulty(rng, rng.choice([closes, 39]), 40, 41))
        yield from year_cases(record, lists, [7] * rng.choice([4, 4, 5, 3, 0]))
    for intends, _, data in years.worked_years():
        record = chain.Record(1, data["weights"][:2], data["index"], data["closes"], data["links"])
        yield from year_cases(record, [data[name] for name in years.LISTS], data["figures"])


def some_year(rng, g):
    """A year for a list of calls, with or without room, sometimes refused at a place."""
    lists = [[rng.choice([99_999, 100_000, 123_457]) if share else 0 for share in g] for _ in range(4)]
    place = rng.randrange(4)
    lists[place] = faulty(rng, lists[place], lists[place][:-1], [24_999] + lists[place][1:])
    return ("year", (rng.choice([3, 4, 4, 5]), *lists))


def event_suite(rng, count):
    """Short lists with calls that are refused among them: the calls after these are answered from the record before."""
    for _ in range(count):
        W = [rng.choice([10**6, 4 * 10**6, 10**9 + 7]) for _ in range(rng.randint(1, 3))]
        g = [10_000] + [rng.choice([0, 10_000]) for _ in W[1:]]
        a = [100_000 if share else 0 for share in g]
        calls = []
        for _ in range(rng.randint(0, 4)):
            p = [rng.choice([99_999, 100_000, 123_457, 400_000]) if share else 0 for share in g]
            calls.append((rng.choice(["quarter", "close"]), faulty(rng, p, p[:-1], [24_999] + p[1:], [25_000] + p[1:])))
            if rng.random() < 0.3:
                calls.append(some_year(rng, g))
            if rng.random() < 0.3:
                calls.append(("renew", {"W": [rng.choice([10**6, 999_999, 10**9])] * len(g), "g": g, "a": a}))
        yield from event_cases(W, g, a, rng.choice([10**8, 10**9, 4 * 10**9]), calls)
    one = ([10**8], [10_000], [100_000], 10**9)
    forty = [("close", [100_000])] * 40
    for calls in ([], [("quarter", [120_000])], forty + [("close", [100_000]), ("quarter", [100_000]), ("quarter", [24_999])]):
        yield from event_cases(*one, calls)


def total_suite(rng, count):
    for _ in range(count):
        sectors = rng.randint(1, 4)
        cuts = sorted(rng.randrange(10**6 + 1) for _ in range(sectors - 1))
        shares = [b - a for a, b in zip([0] + cuts, cuts + [10**6])]
        indices = [rng.choice([10**8, 10**9, 10**10, 1_062_000_007]) for _ in shares]
        shares = faulty(rng, shares, shares[:-1], shares[:-1] + [shares[-1] + 1], [])
        indices = faulty(rng, indices, indices[:-1], [10**8 - 1] + indices[1:], [10**10 + 1] + indices[1:], [])
        yield from total_cases(shares, indices)


def word_suite(rng, count):
    """Every length from 0 to 9, and parts over 32,768 bytes, which a word takes."""
    for length in (*range(10), 32_768, 32_769):
        yield from word_cases([rng.randrange(256) for _ in range(length)])
    for _ in range(count):
        yield from word_cases([rng.randrange(256) for _ in range(rng.randint(2, 6))])


def load_suite(rng, count):
    for start in (0, 1, 12_345, 2**31 - 1, 2**31):
        yield from load_cases(start, 3, [8] * 3, [7] * 4, [6] * 5)
    for lengths in ((1, 2, 2), (2, 1, 2), (2, 2, 1), (2, 2, 2), (3, 2, 2)):
        yield from load_cases(5, 2, *([9] * length for length in lengths))
    yield from load_cases(5, 0, [], [], [])
    yield "(made_frame 0 2).numbers", number_list([1, 2])
    long = [0] * 16_385
    yield f"load_refusal 5 16384 {number_list(long)} {number_list(long)} {number_list(long)}", "0"
    yield f"load_refusal 5 16385 {number_list(long)} {number_list(long)} {number_list(long)}", "33"
    for _ in range(count):
        units = rng.randint(1, 4)
        yield from load_cases(rng.randrange(2**31), units, *(list(range(40, 40 + max(0, units + faulty(rng, rng.randint(0, 1), -1)))) for _ in range(3)))


def sample_suite(rng, count):
    for worked in WORKED.values():
        yield from sample_cases(*worked)
    for sectors in (64, 65):
        yield f"sample_refusal (sharing 100 {number_list([1] * sectors)} {number_list([1] * sectors)})", str(31 * (sectors > 64))
    for interviews in (6_400, 6_401):
        yield from sample_cases(interviews, [1, 2, 4], [0, 0, 3_657])
    for strength in (0, 1, 10**9, 10**9 + 1):
        yield from sample_cases(9, [1, strength], [4, 5])
    for _ in range(count):
        sectors = rng.randint(1, 4)
        strengths = [rng.choice([1, 1, 2, 3, 5, 7, 10**9]) for _ in range(sectors)]
        interviews = rng.choice([0, 1, 2, 3, 5, 10, 100])
        minima = [min(interviews // sectors, rng.choice([0, 1, 2, 3, 25])) for _ in range(sectors)]
        minima[0] += rng.choice([0, 0, interviews - sum(minima)])
        strengths = faulty(rng, strengths, strengths[:-1], [0] + strengths[1:], [])
        minima = faulty(rng, minima, minima[:-1], minima + [0], [interviews + 1 - sum(minima[1:])] + minima[1:], [])
        yield from sample_cases(interviews, strengths, minima)
def register_suite(rng, count):
    """The worked texts, and random and damaged ones of a few lines."""
    for text, places, _ in registers.WORKED:
        yield from register_cases(text, [8] * places, [7] * places, [6] * (places + 1))
    for rooms in ((1, 2, 2), (2, 1, 2), (2, 2, 1), (2, 3, 4), (4, 2, 3), (3, 4, 2)):
        yield from register_cases(b"1,2,3\n4,5,6\n", *([9] * room for room in rooms))
    yield "import_number Imported.too_many", "35"
    yield "import_number (Imported.bad_line 5)", "34"
    yield "import_count Imported.too_many", "0"
    yield "import_count (Imported.bad_line 5)", "0"
    for _ in range(count):
        lines = rng.randint(0, 3)
        text = registers.some_text(rng, lines)
        for _ in range(rng.choice((0, 1, 1, 2))):
            text = registers.damaged(rng, text)
        yield from register_cases(text, *(list(range(40, 40 + max(0, lines + rng.choice((-1, 0, 0, 1))))) for _ in range(3)))
SOME_FIGURES = (10**8, 10**8 + 7, 10**9 - 1, 10**9, 10**9 + 1, 1_064_332_000, 1_063_799_994, 10**10)


def sheet_suite(rng, count):
    """The worked lines, every border of 32 from both sides, the widest texts, then random lines."""
    for new, old in ((999_999_999, 10**9), (1_063_799_994, 1_064_332_000), (100_000_007, 10**8), (10**10, 10**8), (10**8, 10**10), (10**9, 10**9)):
        yield from sheet_cases(b"Road freight", new, old, [7] * 51)
    for name in (b"", b"x", b" ", b"x" * 20, b"x" * 21, bytes([32, 126]), bytes([31, 65]), bytes([65, 127]), bytes([65, 255])):
        yield from sheet_cases(name, 10**9, 999_000_000, [7] * 49)
    for new, old in ((10**8 - 1, 10**9), (10**9, 10**8 - 1), (10**10 + 1, 10**9), (10**9, 10**10 + 1)):
        yield from sheet_cases(b"Sea", new, old, [7] * 49)
    for room in (0, 48, 49, 50):
        yield from sheet_cases(b"Sea", 10**9, 10**9, [7] * room)
    for _ in range(count):
        new, old = (rng.choice([*SOME_FIGURES, rng.randint(10**8, 10**10)]) for _ in range(2))
        name = [rng.randint(32, 126) for _ in range(rng.randint(1, 20))]
        yield from sheet_cases(name, new, old, list(range(100, 149 + rng.randint(0, 2))))


def encoded(command):
    codes = {name: (code, widths) for code, (name, widths) in stream.COMMANDS.items()}
    code, widths = codes[command[0]]
    return [code] + [octet for n, width in zip(command[1:], widths) for octet in n.to_bytes(width, "big")]


def some_commands(rng):
    """A short job: units, a draw, shares and relatives, an open, some calls."""
    numbers = sorted(rng.sample(range(1, 40), rng.randint(1, 3)))
    commands = [("unit", n, rng.choice([5, 10, 10, 40]) * 10**6, rng.randrange(10**6)) for n in numbers]
    size = rng.randint(1, len(numbers))
    commands.append(("draw", size, some_start(rng)))
    if rng.random() < 0.3:
        commands.append(("share", rng.randrange(size), rng.choice([5_000, 10_000])))
    for call in ["open"] + [rng.choice(["quarter", "close"]) for _ in range(rng.randint(0, 2))]:
        commands += [("relative", place, rng.choice([90_000, 100_000, 120_000])) for place in range(size)]
        commands.append((call, 10**9) if call == "open" else (call,))
    return commands


def job_cases(commands):
    """What the stream of these commands prints."""
    yield from output_cases([octet for command in commands for octet in encoded(command)])


def stream_suite(rng, count):
    yield from output_cases([])
    for _ in range(count):
        commands = some_commands(rng)
        if rng.random() < 0.5:
            extra = rng.choice([("open", 10**8 - 1), ("quarter",), ("close",), ("share", 0, 10_000), ("relative", 3, 1), ("draw", 0, 0), ("unit", 50, 1, 1)])
            commands.insert(rng.randrange(len(commands) + 1), extra)
        octets = [octet for command in commands for octet in encoded(command)]
        if rng.random() < 0.25:
            octets = octets[: rng.randrange(len(octets))]
        if rng.random() < 0.25 and octets:
            octets[rng.randrange(len(octets))] = rng.choice([0, 1, 7, 8, 255])
        yield from output_cases(octets)
        yield from reading_cases(octets)


def reading_suite():
    """Each command byte and one beside it, whole, one byte short and one byte more."""
    for code in range(0, 9):
        full = [code] + list(range(11, 27))
        for length in {1, 3, 4, 5, 6, 7, 8, 9, 10, 16, 17}:
            yield from reading_cases(full[:length])
    yield from reading_cases([])
    yield from reading_cases([6] * 32_768)
    yield from reading_cases([6] * 32_769)
    yield from output_cases([8] * 32_768)
    yield from output_cases([8] * 32_769)


def limit_suite():
    """Limits that need long lists, from both sides."""
    for units in (100, 101, 16_384, 16_385):
        for z in (99, 100, 101):
            yield from frame_refusal_cases(list(range(units)), [1] * units, [0] * units, z, 0)
    for units in (100, 101):
        yield from open_cases([10**8] * units, [10_000] * units, [100_000] * units, 10**9)
        yield from call_cases(chain.Record(units, [10**8] * 101, 10**9, 0, 0), [100_000] * units)
    for sectors in (64, 65):
        yield from total_cases([10**6] + [0] * (sectors - 1), [10**9] * sectors)
    panel = list(range(100))
    for old_panel in (panel, panel + [100]):
        yield from rotation_cases([1, 2], [5, 5], [0, 1], 1, 0, old_panel, 0, [0] * 101)
    pair = ([5, 8], [1_000, 1_000], [100_000, 300_000])
    for f in (0, 1, 999, 1_000, 1_001):
        yield from rotation_cases(*pair, 1, 0, [5], f, [0])
        yield from rotation_cases(*pair, 1, 0, [5], f, [])


def edge_suite():
    """Places where one number more or less decides, which random cases seldom meet."""
    for relative in (99_999, 100_000, 100_001):  # 22: the sum of the weights at 10^13
        yield from open_cases([10**13], [10_000], [relative], 10**9)
        yield from call_cases(chain.Record(1, [10**13], 10**9, 0, 0), [relative])
    for turnovers in ([10**12 - 1, 1], [10**12, 1]):  # 3: the total turnover at 10^12
        yield from frame_refusal_cases([1, 2], turnovers, [0, 0], 1, 0)
    yield from take_all_cases([], 1, [])  # 1: no unit, before 5
    yield from take_all_cases([1] * 16_385, 100, [0] * 16_385)  # 1: a unit too many
    for number in (0, 9, 10, 10**19 - 1, 10**19, 2**64 - 1):  # as many digits as 64 bits have
        yield f"decimal_on {number} []", number_list(str(number).encode())
    last = ([5, 8], [1_000, 1_000], [498_500, 499_500], 1, 500_000, [5], 1_000, [0])
    yield from rotation_cases(*last)  # unit 5 leaves at the last step alone
    never = ([5, 8], [1_000, 1_000], [498_500, 498_500], 1, 500_000, [5], 1_000, [0])
    yield from rotation_cases(*never)  # 8: a tie that unit 5 wins at every start
    phoned = ([1, 2, 3, 4, 5, 6], [10, 30, 20, 30, 25, 15], [100_000, 50_000, 150_000, 20_000, 900_000, 950_000])
    yield from rotation_cases(*phoned, 1, 0, [1, 2, 3, 4], 1_000, [0] * 6)  # document 02's worked leavers
    yield from poisson_rotation_cases(*phoned, 1, 0, [1, 2, 3, 4], 1_000, [0] * 6)
    whole = ([1, 2, 3], [1_000_000, 900_000, 800_000], [900_000, 500_000, 300_000])
    close = ([1, 2, 3], [1_500_001, 3, 1_500_002], [999_998, 2, 999_999])
    four = ([1, 2, 3, 4], [50, 20, 50, 20], [400_000, 700_000, 0, 100_000])
    for lists, z in ((whole, 1), (close, 1), (four, 2)):  # document 02, [8]
        yield from poisson_draw_cases(*lists, z, 0, [7] * 3, [8] * 3)
    yield from rotation_cases(*four, 2, 0, [1, 3], 500, [0, 7])
    yield from poisson_rotation_cases(*four, 2, 0, [1, 3], 500, [0, 7])
    for _, lists, z, old, panel, f, births, room in WORKED_BIRTHS:
        yield from rotation_cases(*lists, z, old, panel, f, room, births)
    drawn = [("unit", number, 5 * 10**6, number) for number in (1, 2, 3)] + [("draw", 2, 0)]
    for command in (("relative", 1, 100_000), ("relative", 2, 100_000), ("share", 1, 10_000), ("share", 2, 10_000)):
        yield from job_cases(drawn + [command, ("close",)])  # 18 at the panel's size
    yield from job_cases([("open", 10**9)])  # 19 before the open's own 9
    # an absent unit's relative stays 0: after a draw, an open, a quarter and a close
    yield from job_cases(drawn + [("share", 0, 0)] + 2 * [("relative", 1, 100_000), ("open", 10**9)])
    calls = [command for call in ("quarter", "close", "quarter") for command in (("relative", 1, 120_000), (call,))]
    yield from job_cases(drawn + [("share", 0, 0), ("relative", 1, 100_000), ("open", 10**9)] + calls)


def full_frame_cases():
    """20: the 1,025th unit, judged from a job that holds 1,023, 1,024 or 1,025."""
    for held in (1_023, 1_024, 1_025):
        job = stream.Job(numbers=[0] * held, turnovers=[0] * held, randoms=[0] * held)
        _, told = stream.step(job, ("unit", 1, 1, 1))
        lists = f"(frame (replicate {held} 0) (replicate {held} 0) (replicate {held} 0))"
        state = f"(record {{ units = {lists}; panel = []; shares = []; pending = []; chain = OpenChain.none }})"
        yield f"(step {state} (Command.unit 1 1 1)).says", judged(told, lambda _: "Saying.nothing")


def order_suite(rng, times):
    """Units by falling key, equal keys by lower place; also units that are repeated, and lists of none and one."""
    for _ in range(times):
        keys = [rng.choice((0, 1, 5, 5, 10**12)) + rng.randrange(3) for _ in range(rng.randrange(1, 9))]
        units = [rng.randrange(len(keys)) for _ in range(rng.randrange(9))]
        for order in (units, rng.sample(range(len(keys)), len(keys))):
            yield f"ordered (larger {number_list(keys)}) {number_list(order)}", number_list(frame.by_falling_key(keys, order))
    # document 02's worked leavers, as places
    yield "ordered (larger (10 ∷ 30 ∷ 20 ∷ 30 ∷ 25 ∷ 15 ∷ [])) (0 ∷ 1 ∷ 2 ∷ 3 ∷ [])", "(1 ∷ 3 ∷ 2 ∷ 0 ∷ [])"


def six_columns(rng, kinds):
    tops = (255, 65_535, 2**32 - 1, 2**32 - 1, 2**64 - 1)
    return [list(kinds)] + [[rng.choice([0, 1, top, rng.randrange(top + 1)]) for _ in kinds] for top in tops]


def room_for(kinds):
    return sum(map(writing.length_of, kinds))


def writing_suite(rng, count):
    """The worked cases, 27 for each list, the order of the refusals, both sides of 32,768 bytes; then random ones, both ways."""
    for kinds, room in (([], 0), ([], 2), ([9], 0), ([6], 3), ([7, 8], 2), ([0], 0), ([8], 1), ([1, 7], 18), ([1, 7], 17)):
        yield from write_cases([kinds] + [[9] * len(kinds)] * 5, [170] * room)
    for kind in range(0, 9):
        row = [column[0] for column in six_columns(rng, [kind])]
        yield from write_cases([[value] for value in row], [5] * 18)
        if kind in writing.FIELDS:
            yield from row_cases(row)
    for place in range(6):
        for change in (lambda column: column[:-1], lambda column: column + [1]):
            lists = six_columns(rng, [5, 8])
            lists[place] = change(lists[place])
            yield from write_cases(lists, [])
    for last, room, due in ([6] * 9, 32_768, 0), ([6] * 9, 32_767, 27), ([6] * 10, 0, 15), ([8] * 9, 0, 16), ([8] * 10, 0, 15):
        kinds = [1] * 1_927 + last
        yield f"write_refusal {six_lists([kinds] + [[0] * len(kinds)] * 5)} (replicate {room} 0)", str(due)
    yield from read_all_cases([8] * 32_769, [[]] * 6)
    for octets in ([], [6], [8], [1, 2], [7, 0], [5, 1]):
        yield from read_all_cases(octets, [[3] * 2] * 6)
    for place in range(6):
        yield from read_all_cases([6, 7], [[4] * (1 if place == at else 2) for at in range(6)])
    for _ in range(count):
        kinds = [rng.randint(1, 7) for _ in range(rng.randint(0, 4))]
        lists, room = six_columns(rng, kinds), room_for(kinds)
        yield from write_cases(lists, list(range(max(0, room + faulty(rng, rng.randint(0, 2), -1)))))
        octets = list(writing.write(*lists, bytes(room))[1])
        octets = faulty(rng, octets, octets[:-1], octets + [9])
        yield from read_all_cases(octets, [[place] * max(0, len(kinds) + faulty(rng, rng.randint(0, 2), -1)) for place in range(6)])


SUITES = {
    "limits": lambda rng, times: list(limit_suite()) + list(full_frame_cases()),
    "edges": lambda rng, times: edge_suite(),
    "reading": lambda rng, times: reading_suite(),
    "frame": lambda rng, times: frame_suite(rng, 60 * times),
    "order": lambda rng, times: order_suite(rng, 30 * times),
    "rotation": lambda rng, times: rotation_suite(rng, 40 * times),
    "kept": lambda rng, times: kept_suite(rng, 25 * times),
    "open": lambda rng, times: open_suite(rng, 90 * times),
    "outside": lambda rng, times: outside_suite(rng, 60 * times),
    "call": lambda rng, times: call_suite(rng, 90 * times),
    "renewal": lambda rng, times: renewal_suite(rng, 25 * times),
    "course": lambda rng, times: course_suite(rng, 25 * times),
    "direct": lambda rng, times: direct_suite(rng, 15 * times),
    "events": lambda rng, times: event_suite(rng, 25 * times),
    "year": lambda rng, times: year_suite(rng, 25 * times),
    "total": lambda rng, times: total_suite(rng, 40 * times),
    "stream": lambda rng, times: stream_suite(rng, 60 * times),
    "load": lambda rng, times: load_suite(rng, 10 * times),
    "word": lambda rng, times: word_suite(rng, 10 * times),
    "sample": lambda rng, times: sample_suite(rng, 25 * times),
    "register": lambda rng, times: register_suite(rng, 40 * times),
    "sheet": lambda rng, times: sheet_suite(rng, 10 * times),
    "writing": lambda rng, times: writing_suite(rng, 25 * times),
}


def all_cases(rng, times, names=tuple(SUITES)):
    return [case for name in names for case in SUITES[name](rng, times)]


def test_definitions(t):
    cases = all_cases(random.Random(t.seed), 4 if t.long else 1)
    refused, said = definitions.refused_cases(cases)
    if refused is None:
        t.check(False, "the prover computed the cases", repeat=said[-3000:])
        return
    for i, (expression, value) in enumerate(cases):
        t.check(i not in refused, "a definition computes what the independent computation gives", repeat=f"{expression} ≡ {value}")
