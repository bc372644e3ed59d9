"""Document 01: "Job stream", and all that `chainrun` prints for one."""

from dataclasses import dataclass, field, replace
from typing import Optional

from . import Refused
from .chain import Figure, Record, close, open_chain, quarter
from .frame import draw

LONGEST_STREAM = 32_768
MOST_HELD = 1_024
PANEL_PLACES = 100
WHOLE_SHARE = 10_000

# Command byte -> name and the widths of its operands in bytes.
COMMANDS = {
    1: ("unit", (4, 8, 4)),
    2: ("draw", (1, 4)),
    3: ("share", (1, 2)),
    4: ("relative", (1, 4)),
    5: ("open", (8,)),
    6: ("quarter", ()),
    7: ("close", ()),
}

END = ("end",)


@dataclass(frozen=True)
class Job:
    """What a job holds between commands; panel, weights, shares and relatives are equally long."""

    numbers: list = field(default_factory=list)
    turnovers: list = field(default_factory=list)
    randoms: list = field(default_factory=list)
    panel: list = field(default_factory=list)
    weights: list = field(default_factory=list)
    shares: list = field(default_factory=list)
    relatives: list = field(default_factory=list)
    chain: Optional[Record] = None


# Reader


def big_endian(octets):
    """The first byte is the highest."""
    number = 0
    for octet in octets:
        number = number * 256 + octet
    return number


def front_word(part):
    """Document 02, [3]: the 32-bit word at the front of a part, or 17 when fewer than four bytes are left."""
    return big_endian(part[:4]) if len(part) >= 4 else Refused(17)


def read_command(part):
    """The command at the front of a part (or END, or 15, 16, 17) and the rest after it.

    At the end and at a refusal the rest is the part itself.
    """
    if len(part) > LONGEST_STREAM:
        return Refused(15), part
    if len(part) == 0:
        return END, part
    if part[0] not in COMMANDS:
        return Refused(16), part
    name, widths = COMMANDS[part[0]]
    if len(part) < 1 + sum(widths):
        return Refused(17), part
    operands = []
    at = 1
    for width in widths:
        operands.append(big_endian(part[at : at + width]))
        at += width
    return (name, *operands), part[at:]


# Steps: each answers the job afterwards, and the lines printed or a refusal


def step(job, command):
    """One command of a job; a refusal hands the job back as it came."""
    steps = {
        "unit": step_unit,
        "draw": step_draw,
        "share": step_share,
        "relative": step_relative,
        "open": step_open,
        "quarter": step_quarter,
        "close": step_close,
    }
    return steps[command[0]](job, *command[1:])


def step_unit(job, number, turnover, random):
    """A unit waits for the next draw, which judges it."""
    if len(job.numbers) >= MOST_HELD:
        return job, Refused(20)
    after = replace(
        job,
        numbers=job.numbers + [number],
        turnovers=job.turnovers + [turnover],
        randoms=job.randoms + [random],
    )
    return after, []


def step_draw(job, size, start):
    """ "A draw sets all shares to 10,000 and all relatives to 0 and drops an open chain." """
    room = [0] * PANEL_PLACES
    frame = (job.numbers, job.turnovers, job.randoms)
    answer, numbers, weights = draw(*frame, size, start, room, room)
    if isinstance(answer, Refused):
        return job, answer
    panel, weights = numbers[:size], weights[:size]
    after = replace(
        job,
        panel=panel,
        weights=weights,
        shares=[WHOLE_SHARE] * size,
        relatives=[0] * size,
        chain=None,
    )
    return after, [f"P {panel[i]} {weights[i]}" for i in range(size)]


def step_share(job, place, share):
    """ "18 place not below panel size"; the share itself is judged by the open."""
    if place >= len(job.panel):
        return job, Refused(18)
    shares = list(job.shares)
    shares[place] = share
    return replace(job, shares=shares), []


def step_relative(job, place, relative):
    """As a share; judged by the open, quarter or close that uses it."""
    if place >= len(job.panel):
        return job, Refused(18)
    relatives = list(job.relatives)
    relatives[place] = relative
    return replace(job, relatives=relatives), []


def step_open(job, start):
    """ "Open uses the pending relatives as a"; without a panel 19 comes before 12."""
    if not job.panel:
        return job, Refused(19)
    answer = open_chain(job.weights, job.shares, job.relatives, start)
    if isinstance(answer, Refused):
        return job, answer
    return replace(job, chain=answer, relatives=[0] * len(job.panel)), []


def step_call(job, call, letter):
    """Quarter and close: 19 without a chain; an accepted one sets all relatives to 0."""
    if job.chain is None:
        return job, Refused(19)
    record, answer = call(job.chain, job.relatives)
    if isinstance(answer, Figure):
        after = replace(job, chain=record, relatives=[0] * len(job.panel))
        return after, [f"{letter} {answer.F}"]
    return job, answer


def step_quarter(job):
    """`Q F`."""
    return step_call(job, quarter, "Q")


def step_close(job):
    """`C F`."""
    return step_call(job, close, "C")


# Program


def run(stream):
    """All bytes that `chainrun` prints for a stream."""
    if len(stream) > LONGEST_STREAM:
        return b"R 15 0\n"
    lines = []
    job = Job()
    rest = stream
    while True:
        offset = len(stream) - len(rest)
        command, rest = read_command(rest)
        if command == END:
            break
        answer = command
        if not isinstance(command, Refused):
            job, answer = step(job, command)
        if isinstance(answer, Refused):
            lines.append(f"R {answer.number} {offset}")
            break
        lines.extend(answer)
    return "".join(line + "\n" for line in lines).encode("ascii")
