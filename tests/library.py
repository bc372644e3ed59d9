"""The built library, called through its C interface (include/vougecress.h).

Each function takes and answers what its namesake of `independent` does, so that a
test hands both the same data. Lists are copied into C arrays and read back whole,
so a place that the library wrote without leave shows.
"""

import ctypes
import subprocess
from ctypes import POINTER, Array, Structure, c_int64, c_size_t, c_uint16, c_uint32, c_uint64, c_uint8
from functools import cache
from pathlib import Path

from independent import Refused
from independent.chain import Figure, Record, Stopped, Total, Year
from independent.panels import Renewed
from independent.frame import Drawn, Rotated, Taken
from independent.sample import Shared
from independent.register import BadLine
from independent.sheet import Change
from independent.stream import END

TOP = Path(__file__).resolve().parent.parent
PLACES = 100
FIELDS_BEFORE_WEIGHTS = 4


def answer_type(*fields):
    """An answer struct: the refusal number and then these fields."""
    return type("Answer", (Structure,), {"_fields_": [("refusal", c_uint32), *fields]})


FigureAnswer = answer_type(("figure", c_uint64))
YearAnswer = answer_type(("count", c_uint64))
TakenAnswer = answer_type(("q", c_uint64), ("n", c_uint64), ("rest", c_uint64))
DrawnAnswer = answer_type(("n", c_uint64), ("rest", c_uint64))
RotatedAnswer = answer_type(("k", c_uint32), ("start", c_uint32), ("count", c_uint64))
ReadAnswer = answer_type(
    ("command", c_uint32), ("taken", c_uint64), ("first", c_uint64), ("second", c_uint64), ("third", c_uint64)
)
WordAnswer = answer_type(("word", c_uint32))
LoadAnswer = answer_type(("count", c_uint64))
Places = c_uint64 * 64
SampleAnswer = answer_type(("counts", Places), ("wholes", Places), ("remainders", Places))
SheetAnswer = answer_type(("change", c_int64), ("rest", c_uint64))
RunAnswer = answer_type(("length", c_uint64))
RegisterAnswer = answer_type(("count", c_uint64), ("offset", c_uint64))


class Unit(Structure):
    _fields_ = [("number", c_uint32), ("turnover", c_uint64), ("random", c_uint32)]


WrittenAnswer = answer_type(("length", c_uint64))
ListedAnswer = answer_type(("count", c_uint64))

# a frame, its size and start, and behind them what a draw and a rotation with previous lists take
FRAMED = ("u32s", "u64s", "u32s", c_size_t, c_uint32)
KEPT_DRAW = (*FRAMED, c_uint32, "u32s", "u32s", "u32s", "u64s")
KEPT_ROTATION = (*FRAMED, "u32s", c_uint32, c_size_t, c_uint64, "u32s", c_uint32, "u32s", "u32s", "u32s")

# name -> answer type and parameter types; a list is a pointer and a count
SIGNATURES = {
    "vougecress_open": (c_uint32, ("u64s", "u32s", "u32s", c_uint64, "u64s")),
    "vougecress_open_outside": (c_uint32, ("u64s", "u32s", "u32s", c_uint64, "u8s", c_uint32, "u64s")),
    "vougecress_renew": (c_uint32, ("u64s", "u32s", "u32s", "u64s")),
    "vougecress_renew_outside": (c_uint32, ("u64s", "u32s", "u32s", "u8s", c_uint32, "u64s")),
    "vougecress_quarter": (FigureAnswer, ("u64s", "u32s")),
    "vougecress_close": (FigureAnswer, ("u64s", "u32s")),
    "vougecress_year": (YearAnswer, ("u64s", "u32s", "u32s", "u32s", "u32s", "u64s")),
    "vougecress_total": (FigureAnswer, ("u32s", "u64s")),
    "vougecress_take_all": (TakenAnswer, ("u64s", c_size_t, "u8s")),
    "vougecress_draw": (DrawnAnswer, ("u32s", "u64s", "u32s", c_size_t, c_uint32, "u32s", "u64s")),
    "vougecress_rotate": (
        RotatedAnswer,
        ("u32s", "u64s", "u32s", c_size_t, c_uint32, "u32s", c_uint32, c_size_t, c_uint64, "u32s", "u32s"),
    ),
    "vougecress_draw_poisson": (DrawnAnswer, ("u32s", "u64s", "u32s", c_size_t, c_uint32, "u32s", "u64s")),
    "vougecress_rotate_poisson": (
        RotatedAnswer,
        ("u32s", "u64s", "u32s", c_size_t, c_uint32, "u32s", c_uint32, c_size_t, c_uint64, "u32s", "u32s"),
    ),
    "vougecress_take_all_units": (TakenAnswer, ("u32s", "u64s", c_size_t, c_uint32, "u32s", "u32s", "u32s")),
    "vougecress_draw_kept": (DrawnAnswer, KEPT_DRAW),
    "vougecress_draw_poisson_kept": (DrawnAnswer, KEPT_DRAW),
    "vougecress_rotate_kept": (RotatedAnswer, KEPT_ROTATION),
    "vougecress_rotate_poisson_kept": (RotatedAnswer, KEPT_ROTATION),
    "vougecress_load": (LoadAnswer, (c_uint64, c_size_t, "u32s", "u64s", "u32s")),
    "vougecress_sample": (SampleAnswer, (c_uint64, "u64s", "u64s")),
    "vougecress_import": (RegisterAnswer, ("octets", "u32s", "u64s", "u32s")),
    "vougecress_import_units": (RegisterAnswer, ("octets", "units")),
    "vougecress_sheet": (SheetAnswer, ("octets", c_uint64, c_uint64, "octets")),
    "vougecress_read": (ReadAnswer, ("octets",)),
    "vougecress_word": (WordAnswer, ("octets",)),
    "vougecress_run": (RunAnswer, ("octets", "octets")),
    "vougecress_run_length": (c_uint64, ("octets",)),
    "vougecress_write": (WrittenAnswer, ("u8s", "u8s", "u16s", "u32s", "u32s", "u64s", "octets")),
    "vougecress_read_all": (ListedAnswer, ("octets", "u8s", "u8s", "u16s", "u32s", "u32s", "u64s")),
}
ELEMENTS = {"u8s": c_uint8, "u16s": c_uint16, "u32s": c_uint32, "u64s": c_uint64, "octets": c_uint8, "units": Unit}


@cache
def built():
    """The shared library, built by the README's command, with its functions declared."""
    subprocess.run([str(TOP / "build.sh")], check=True, capture_output=True)
    library = ctypes.CDLL(str(TOP / "build" / "libvougecress.so"))
    for name, (result, parameters) in SIGNATURES.items():
        function = getattr(library, name, None)
        if function is not None:
            function.restype = result
            function.argtypes = [t for p in parameters for t in spread(p)]
    return library


def spread(parameter):
    if parameter in ELEMENTS:
        return [POINTER(ELEMENTS[parameter]), c_size_t]
    return [parameter]


def lent(parameter, argument):
    """A C array with a copy of a list, or of bytes."""
    array = ELEMENTS[parameter] * len(argument)
    return array.from_buffer_copy(argument) if parameter == "octets" else array(*argument)


def call(name, *arguments):
    """The answer, and every list as it is after the call, in the order of the parameters."""
    _, parameters = SIGNATURES[name]
    passed, lists = [], []
    for parameter, argument in zip(parameters, arguments, strict=True):
        if parameter in ELEMENTS:
            array = lent(parameter, argument)
            lists.append((array, bytes if parameter == "octets" else list))
            passed += [array, len(argument)]
        else:
            passed.append(argument)
    answer = getattr(built(), name)(*passed)
    return answer, [kind(array) for array, kind in lists]


def value_of(answer, name):
    """A field of an answer; an array as a list."""
    value = getattr(answer, name)
    return list(value) if isinstance(value, Array) else value


def refusal_of(answer):
    """Refused, or None; after a refusal every other field is 0."""
    if answer.refusal == 0:
        return None
    others = [value_of(answer, name) for name, _ in answer._fields_[1:]]
    if any(any(value) if isinstance(value, list) else value for value in others):
        return ("a refusal with more than its number", answer.refusal, others)
    return Refused(answer.refusal)


def unchanged(lists, arguments):
    """Raise if a list that is only read was written."""
    if any(after != type(after)(before) for after, before in zip(lists, arguments)):
        raise AssertionError("a list that was lent to be read is changed")


# Chain


def as_list(record):
    return [record.units, record.index, record.closes, record.links] + list(record.weights)


def as_record(numbers):
    units, index, closes, links = numbers[:FIELDS_BEFORE_WEIGHTS]
    return Record(units, numbers[FIELDS_BEFORE_WEIGHTS:], index, closes, links)


def open_chain(W, g, a, start):
    """The new record, or a refusal that left the lent record as it was."""
    before = [7] * (FIELDS_BEFORE_WEIGHTS + PLACES)
    number, (*inputs, after) = call("vougecress_open", W, g, a, start, before)
    unchanged(inputs, (W, g, a))
    if number == 0:
        return as_record(after)
    return Refused(number) if after == before else ("a refused open wrote its record", number)


def open_outside(W, g, a, start, marks, G):
    """The same with an outside share."""
    before = [7] * (FIELDS_BEFORE_WEIGHTS + PLACES)
    number, (*inputs, after) = call("vougecress_open_outside", W, g, a, start, marks, G, before)
    unchanged(inputs, (W, g, a, marks))
    if number == 0:
        return as_record(after)
    return Refused(number) if after == before else ("a refused open wrote its record", number)


def renew(record, W, g, a, marks=None, G=None):
    """The record of the new panel, or the record as it was and a refusal."""
    before, lists = as_list(record), [W, g, a]
    if marks is None:
        number, (*inputs, after) = call("vougecress_renew", *lists, before)
    else:
        lists.append(marks)
        number, (*inputs, after) = call("vougecress_renew_outside", *lists, G, before)
    unchanged(inputs, lists)
    return as_record(after), Refused(number) if number else Renewed()


def called(name, record, p):
    answer, (after, relatives) = call(name, as_list(record), p)
    unchanged([relatives], [p])
    return as_record(after), refusal_of(answer) or Figure(answer.figure)


def quarter(record, p):
    return called("vougecress_quarter", record, p)


def close(record, p):
    return called("vougecress_close", record, p)


def year(record, first, second, third, last, figures):
    """The record and the figures after it, and how far it came: a refused year has its count too."""
    lists = (first, second, third, last)
    answer, (after, *read, buffer) = call("vougecress_year", as_list(record), *lists, figures)
    unchanged(read, lists)
    told = Stopped(answer.refusal, answer.count) if answer.refusal else Year(answer.count)
    return as_record(after), buffer, told


def total(shares, indices):
    answer, lists = call("vougecress_total", shares, indices)
    unchanged(lists, (shares, indices))
    return refusal_of(answer) or Total(answer.figure)


# Frame


def take_all_entry(turnovers, z, out_marks):
    answer, (read, marks) = call("vougecress_take_all", turnovers, z, out_marks)
    unchanged([read], [turnovers])
    return refusal_of(answer) or Taken(answer.q, answer.n, answer.rest), marks


def draw(numbers, turnovers, randoms, z, start, out_numbers, out_weights, entry="vougecress_draw"):
    answer, (*read, after_numbers, after_weights) = call(
        entry, numbers, turnovers, randoms, z, start, out_numbers, out_weights
    )
    unchanged(read, (numbers, turnovers, randoms))
    return refusal_of(answer) or Drawn(answer.n, answer.rest), after_numbers, after_weights


def rotate(
    numbers, turnovers, randoms, z, old_start, old_panel, f, previous_n, previous_rest, births, out_leavers, entry="vougecress_rotate"
):
    """The answer and the buffer afterwards."""
    rest = (old_start, old_panel, f, previous_n, previous_rest, births, out_leavers)
    answer, (*read, leavers) = call(entry, numbers, turnovers, randoms, z, *rest)
    unchanged(read, (numbers, turnovers, randoms, old_panel, births))
    return refusal_of(answer) or Rotated(answer.k, answer.start, answer.count), leavers


def draw_poisson(*arguments, **data):
    return draw(*arguments, **data, entry="vougecress_draw_poisson")


def rotate_poisson(*arguments, **data):
    return rotate(*arguments, **data, entry="vougecress_rotate_poisson")


# Firms at the border


def take_all_units(numbers, turnovers, z, threshold, first, second, out_units):
    answer, (*read, units) = call("vougecress_take_all_units", numbers, turnovers, z, threshold, first, second, out_units)
    unchanged(read, (numbers, turnovers, first, second))
    return refusal_of(answer) or Taken(answer.q, answer.n, answer.rest), units


def kept_draw(numbers, turnovers, randoms, z, start, threshold, first, second, out_numbers, out_weights, name="vougecress_draw_kept"):
    lists = (threshold, first, second, out_numbers, out_weights)
    answer, (*read, after_numbers, after_weights) = call(name, numbers, turnovers, randoms, z, start, *lists)
    unchanged(read, (numbers, turnovers, randoms, first, second))
    return refusal_of(answer) or Drawn(answer.n, answer.rest), after_numbers, after_weights


def kept_poisson_draw(**data):
    return kept_draw(**data, name="vougecress_draw_poisson_kept")


def kept_rotate(
    numbers,
    turnovers,
    randoms,
    z,
    old_start,
    old_panel,
    f,
    previous_n,
    previous_rest,
    births,
    threshold,
    first,
    second,
    out_leavers,
    name="vougecress_rotate_kept",
):
    lists = (old_panel, f, previous_n, previous_rest, births, threshold, first, second, out_leavers)
    answer, (*read, leavers) = call(name, numbers, turnovers, randoms, z, old_start, *lists)
    unchanged(read, (numbers, turnovers, randoms, old_panel, births, first, second))
    return refusal_of(answer) or Rotated(answer.k, answer.start, answer.count), leavers


def kept_poisson_rotate(**data):
    return kept_rotate(**data, name="vougecress_rotate_poisson_kept")


def load(start, count, numbers, turnovers, randoms):
    answer, lists = call("vougecress_load", start, count, numbers, turnovers, randoms)
    return refusal_of(answer) or answer.count, *lists


def share(interviews, strengths, minima):
    answer, lists = call("vougecress_sample", interviews, strengths, minima)
    unchanged(lists, (strengths, minima))
    return refusal_of(answer) or Shared(*(value_of(answer, name) for name in ("counts", "wholes", "remainders")))
# Registers


def imported(answer):
    """The count, `BadLine` with its offset, or Refused; only 34 has an offset."""
    if answer.refusal == 34:
        return BadLine(offset=answer.offset) if answer.count == 0 else ("34 with a count", answer.count)
    return refusal_of(answer) or (answer.count if answer.offset == 0 else ("an offset without 34", answer.offset))


def import_lists(text, numbers, turnovers, randoms):
    answer, (read, *lists) = call("vougecress_import", text, numbers, turnovers, randoms)
    unchanged([read], [text])
    return imported(answer), *lists


def import_units(text, units):
    """Units are tuples of number, turnover and random number."""
    answer, (read, after) = call("vougecress_import_units", text, units)
    unchanged([read], [text])
    return imported(answer), [(unit.number, unit.turnover, unit.random) for unit in after]


def sheet(name, new, old, out):
    answer, (read, after) = call("vougecress_sheet", name, new, old, out)
    unchanged([read], [name])
    return refusal_of(answer) or Change(answer.change, answer.rest), after


# Job stream

# Command of an answer -> its name and how many operands it has.
READ = {
    0: (*END, 0),
    1: ("unit", 3),
    2: ("draw", 2),
    3: ("share", 2),
    4: ("relative", 2),
    5: ("open", 1),
    6: ("quarter", 0),
    7: ("close", 0),
}


def read_command(part):
    """The command at the front of a part, and the rest after the bytes that it takes."""
    answer, lists = call("vougecress_read", part)
    unchanged(lists, [part])
    if answer.refusal:
        return refusal_of(answer), part
    name, count = READ[answer.command]
    operands = (answer.first, answer.second, answer.third)
    if any(operands[count:]) or answer.taken > len(part):
        return ("an absent operand that is not 0, or more taken than there is", name, operands, answer.taken), part
    return (name, *operands[:count]), part[answer.taken :]


def front_word(part):
    """The word at the front of a part."""
    answer, lists = call("vougecress_word", part)
    unchanged(lists, [part])
    return refusal_of(answer) or answer.word


def run(stream, out):
    """The refusal's number (0: none), the bytes of the text that was written, and the buffer afterwards."""
    answer, (read, after) = call("vougecress_run", stream, out)
    unchanged([read], [stream])
    return answer.refusal, answer.length, after


def run_length(stream):
    """The bytes of the text that a run writes."""
    length, lists = call("vougecress_run_length", stream)
    unchanged(lists, [stream])
    return length


def write(kinds, sizes, shares, numbers, randoms, amounts, out):
    """The length, and the buffer afterwards."""
    lists = (kinds, sizes, shares, numbers, randoms, amounts)
    answer, (*read, after) = call("vougecress_write", *lists, out)
    unchanged(read, lists)
    return refusal_of(answer) or answer.length, after


def read_all(stream, kinds, sizes, shares, numbers, randoms, amounts):
    """The count of commands, and the six lists afterwards."""
    answer, (read, *lists) = call("vougecress_read_all", stream, kinds, sizes, shares, numbers, randoms, amounts)
    unchanged([read], [stream])
    return refusal_of(answer) or answer.count, *lists
