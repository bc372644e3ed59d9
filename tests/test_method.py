"""docs/METHOD.md against the independent computation; its examples against the built library as well.

A fenced block marked `example` is a worked example. Its first line is the kind; each other line is handed in, but for the
lines that begin with `=`: each is a fact, which must come out of what stands above it. The answer to a call is among the
facts that the block must state. The tables of limits, commands, orders and refusals are read too, and so are the numbers
of the text between them.
"""

import re
from itertools import combinations
from pathlib import Path

import generate
import library
from independent import Refused, chain, frame, kept, load, outside, panels, register, sample, sheet, stream, writing

TOP = Path(__file__).resolve().parent.parent
TEXT = (TOP / "docs" / "METHOD.md").read_text()
DEFINITIONS = "\n".join(path.read_text() for path in sorted((TOP / "crates").glob("*/specs/*.antt")))
LIMITS = "\n".join(path.read_text() for path in (TOP / "crates").glob("*/specs/Limits.antt"))


# Facts


def said(name, values):
    """A fact: a name and the values that it has."""
    return " ".join([name, *map(str, values)]) if values else f"{name} none"


def facts_of(**values):
    """A fact for each name."""
    return [said(name, value if isinstance(value, list) else [value]) for name, value in values.items()]


class Example:
    """A block as far as it was read: `facts` is all that may be stated, `answer` what must be."""

    def __init__(self, t, where, frames):
        self.t = t
        self.where = where
        self.frames = frames
        self.given = {}
        self.facts = []
        self.answer = []

    def take(self, line):
        """A line that hands in a name and its numbers, or a frame by its name."""
        name, *numbers = line.split()
        if name == "frame":
            self.given.update(self.frames[numbers[0]])
        else:
            self.given[name] = [int(number) for number in numbers]

    def reckon(self):
        """Facts and answer from what was handed in."""

    def finish(self, claims):
        """What can only be judged at the end of a block."""

    def lists(self, *names):
        return [self.given[name] for name in names]

    def one(self, name):
        (number,) = self.given[name]
        return number

    def same(self, ours, expected):
        self.t.check(ours == expected, f"{self.where}: the library answers as the independent computation", (ours, expected))

    def answers(self, refusal, *more, **values):
        """The answer is the refusal's number or these values; buffers are stated either way."""
        self.answer = facts_of(refusal=refusal.number) if isinstance(refusal, Refused) else facts_of(**values)
        self.answer += more


class Frame(Example):
    """numbers, turnovers, randoms: a frame that later examples name"""

    def reckon(self):
        self.answer = facts_of(units=len(self.given["numbers"]), turnover=sum(self.given["turnovers"]))


class TakeAll(Example):
    """turnovers, z, marks"""

    def reckon(self):
        turnovers, marks = self.lists("turnovers", "marks")
        z = self.one("z")
        answer, after = frame.take_all_entry(turnovers, z, marks)
        self.same(library.take_all_entry(turnovers, z, marks), (answer, after))
        refused = isinstance(answer, Refused)
        self.answers(answer, said("marks", after), **({} if refused else {"q": answer.q, "n": answer.n, "X": answer.X}))
        self.facts = [] if refused else [self.tried(turnovers, z, q) for q in range(z)]

    @staticmethod
    def tried(turnovers, z, q):
        X = sum(sorted(turnovers)[: len(turnovers) - q])
        count = sum(frame.reaches(z - q, turnover, X) for turnover in turnovers)
        return f"try {q}: X {X}, reached by {count}"


class Draw(Example):
    """numbers, turnovers, randoms, z, start, panel, weights"""

    key = staticmethod(frame.pareto_key)
    ours = staticmethod(library.draw)

    def reckon(self):
        register = self.lists("numbers", "turnovers", "randoms")
        z, start = self.one("z"), self.one("start")
        expected = frame.draw(*register, z, start, *self.lists("panel", "weights"), key=self.key)
        self.same(self.ours(*register, z, start, *self.lists("panel", "weights")), expected)
        answer, panel, weights = expected
        refused = isinstance(answer, Refused)
        buffers = facts_of(panel=panel, weights=weights)
        self.answers(answer, *buffers, **({} if refused else {"n": answer.n, "X": answer.X}))
        self.facts = [] if refused else keys(*register, start, frame.take_all(register[1], z), self.key)


class PoissonDraw(Draw):
    """numbers, turnovers, randoms, z, start, panel, weights"""

    key = staticmethod(frame.poisson_key)
    ours = staticmethod(library.draw_poisson)


def keys(numbers, turnovers, randoms, start, stratum, key):
    """A line for each unit: that it is take-all, or its shifted number and its key."""
    for place, number in enumerate(numbers):
        if place in stratum.group:
            yield f"unit {number}: take-all"
        else:
            r = frame.shifted(randoms[place], start)
            yield f"unit {number}: r {r}, key {key(r, turnovers[place], stratum.n, stratum.X)}"


class TakeAllUnits(Example):
    """numbers, turnovers, z, threshold, first, second, units"""

    def reckon(self):
        handed = (*self.lists("numbers", "turnovers"), self.one("z"), self.one("threshold"), *self.lists("first", "second", "units"))
        answer, after = frame.take_all_units(*handed)
        self.same(library.take_all_units(*handed), (answer, after))
        refused = isinstance(answer, Refused)
        self.answers(answer, said("units", after), **({} if refused else {"q": answer.q, "n": answer.n, "X": answer.X}))


class KeptDraw(Example):
    """numbers, turnovers, randoms, z, start, threshold, first, second, panel, weights"""

    def reckon(self):
        register = (*self.lists("numbers", "turnovers", "randoms"), self.one("z"), self.one("start"), self.one("threshold"))
        handed = (*register, *self.lists("first", "second", "panel", "weights"))
        answer, panel, weights = kept.draw(*handed)
        self.same(library.kept_draw(*handed), (answer, panel, weights))
        refused = isinstance(answer, Refused)
        self.answers(answer, *facts_of(panel=panel, weights=weights), **({} if refused else {"n": answer.n, "X": answer.X}))


class KeptRotate(Example):
    """numbers, turnovers, randoms, z, start, old, f, n, X, births, threshold, first, second, leavers"""

    def reckon(self):
        register = (*self.lists("numbers", "turnovers", "randoms"), self.one("z"), self.one("start"), self.given["old"])
        births = (self.one("f"), self.one("n"), self.one("X"), self.given["births"], self.one("threshold"))
        handed = (*register, *births, *self.lists("first", "second", "leavers"))
        answer, after = kept.rotate(*handed)
        self.same(library.kept_rotate(*handed), (answer, after))
        if isinstance(answer, Refused):
            self.answers(answer, said("leavers", after))
        else:
            self.answers(answer, said("leavers", after), k=answer.k, start=answer.new_start, count=answer.count)


class Rotate(Example):
    """numbers, turnovers, randoms, z, start, old, f, leavers; previous-n, previous-X and births, or none of the three"""

    key = staticmethod(frame.pareto_key)
    ours = staticmethod(library.rotate)

    def reckon(self):
        register = self.lists("numbers", "turnovers", "randoms")
        numbers, turnovers, _ = register
        z, start, f = self.one("z"), self.one("start"), self.one("f")
        old, before = self.lists("old", "leavers")
        births = self.given.get("births", [])
        previous = [self.one(name) if name in self.given else 0 for name in ("previous-n", "previous-X")]
        answer, after = frame.rotate(*register, z, start, old, f, *previous, births, before, key=self.key)
        self.same(self.ours(*register, z, start, old, f, *previous, births, before), (answer, after))
        if isinstance(answer, Refused):
            self.answers(answer, said("leavers", after))
        else:
            self.answers(answer, said("leavers", after), k=answer.k, start=answer.new_start, count=answer.count)
        if not isinstance(answer, Refused) or answer.number == 8:
            stratum = frame.take_all(turnovers, z)
            places = frame.members_of(*register, start, old, *previous, births, stratum.group)
            members = [numbers[i] for i in places]
            self.facts = facts_of(members=members, required=frame.required_leavers(f, len(members)))
            self.facts += [self.step(register, start, members, stratum, k) for k in range(frame.LAST_STEP + 1)]

    def step(self, register, start, members, stratum, k):
        new = (start + frame.STEP * k) % frame.CIRCLE
        sampled = sorted(register[0][i] for i in frame.sampled(*register, new, stratum, self.key))
        leavers = [number for number in members if number not in sampled]
        return f"step {k}: start {new}, {said('sampled', sampled)}, {said('leave', leavers)}"


class PoissonRotate(Rotate):
    """numbers, turnovers, randoms, z, start, old, f, leavers"""

    key = staticmethod(frame.poisson_key)
    ours = staticmethod(library.rotate_poisson)


class Chain(Example):
    """W, g, a (and marks, G) and `open START`, or units, v, C, closes (and links, if they are more) and `record`; then `quarter` and `close` with their relatives, `year` by its lists, or other W, g, a and `renew`"""

    record = None
    direct = None

    def take(self, line):
        word, *numbers = line.split()
        numbers = [int(number) for number in numbers]
        if word == "open":
            self.open(*numbers)
        elif word == "record":
            self.hand_in()
        elif word in ("quarter", "close"):
            self.call(word, numbers)
        elif word == "year":
            self.year()
        elif word == "renew":
            self.renew()
        else:
            super().take(line)

    def state(self):
        units = min(self.record.units, chain.PLACES)
        return facts_of(v=self.record.weights[:units], C=self.record.index, closes=self.record.closes, links=self.record.links)

    def open(self, start):
        W, g, a = self.lists("W", "g", "a")
        answer, u, opening = self.opened(W, g, a, start)
        self.facts = facts_of(u=u)
        if isinstance(answer, Refused):
            self.answers(answer)
        else:
            self.record, self.direct = answer, panels.Course(start, **opening)
            self.answers(answer, v=answer.weights[: answer.units])
            self.facts += facts_of(e=self.direct.panel.e) + self.state()

    def opened(self, W, g, a, start):
        """The answer, the u, and what was brought; with marks, by the opening with G."""
        if "marks" not in self.given:
            answer = chain.open_chain(W, g, a, start)
            self.same(library.open_chain(W, g, a, start), answer)
            return answer, [chain.domain_weight(W[i], g[i]) for i in range(len(W))], {"W": W, "g": g, "a": a}
        rest = self.given["marks"], self.one("G")
        answer = outside.open_outside(W, g, a, start, *rest)
        self.same(library.open_outside(W, g, a, start, *rest), answer)
        u = [] if isinstance(answer, Refused) else outside.shared_weights(W, g, *rest)
        return answer, u, {"W": W, "g": g, "a": a, "marks": rest[0], "G": rest[1]}

    def hand_in(self):
        v = self.given["v"]
        links = self.one("links") if "links" in self.given else self.one("closes")
        self.record = chain.Record(self.one("units"), v + [0] * (chain.PLACES - len(v)), self.one("C"), self.one("closes"), links)
        self.direct = None

    def renew(self):
        opening = {name: self.given[name] for name in ("W", "g", "a")}
        before = self.record
        expected = panels.renew(before, **opening)
        self.same(library.renew(before, **opening), expected)
        self.record, answer = expected
        if isinstance(answer, Refused):
            self.answers(answer)
        else:
            self.answers(answer, v=self.record.weights[: self.record.units])
            if self.direct is not None:
                self.direct.renewed(opening)
        self.facts = self.state()

    def call(self, word, p):
        before = self.record
        expected = getattr(chain, word)(before, p)
        self.same(getattr(library, word)(before, p), expected)
        self.record, answer = expected
        if isinstance(answer, Refused):
            self.answers(answer)
            self.facts = self.state()
            return
        self.answers(answer, F=answer.F)
        self.facts = self.state() + self.reckoned(before, p, answer.F) + self.beside(word, p, answer.F)

    def year(self):
        lists = self.lists("first", "second", "third", "last", "figures")
        expected = chain.year(self.record, *lists)
        self.same(library.year(self.record, *lists), expected)
        self.record, figures, answer = expected
        number = answer.number if isinstance(answer, Refused) else 0
        self.answer = facts_of(refusal=number, count=answer.count, figures=figures)
        self.facts = self.state()

    def reckoned(self, before, p, F):
        v = before.weights[: before.units]
        V, N = sum(v), sum(v[i] * p[i] for i in range(len(p)))
        L = N * 1_000 // V
        self.t.check(before.index * L // 10**8 == F, f"{self.where}: F is reckoned from L", (before, p, F))
        return facts_of(V=V, N=N, L=L)

    def beside(self, word, p, F):
        """D, and the two sides of the bound."""
        if self.direct is None:
            return []
        D, m, allowed = self.direct.D(p), self.direct.m, self.direct.allowed()
        self.t.check(chain.within_bound(F, D, allowed), f"{self.where}: F is within the bound", (F, D, m))
        if word == "close":
            self.direct.closed(p)
        return facts_of(D=D, m=m, multiplier=allowed, distance=10_000_000 * abs(F - D), bound=11 * allowed * D)


class Total(Example):
    """shares, indices"""

    def reckon(self):
        shares, indices = self.lists("shares", "indices")
        answer = chain.total(shares, indices)
        self.same(library.total(shares, indices), answer)
        self.answers(answer, **({} if isinstance(answer, Refused) else {"total": answer.total}))
        self.facts = facts_of(sum=sum(share * index for share, index in zip(shares, indices)))


class Sample(Example):
    """interviews, strengths, minima; the lists' places beyond the sectors are 0 and are not stated"""

    def reckon(self):
        strengths, minima = self.lists("strengths", "minima")
        data = (self.one("interviews"), strengths, minima)
        answer = sample.share(*data)
        self.same(library.share(*data), answer)
        refused = isinstance(answer, Refused)
        self.answers(answer, **({} if refused else {name: values[: len(strengths)] for name, values in answer._asdict().items()}))
        self.facts = [] if refused else list(self.passes(*data))

    @staticmethod
    def passes(rest, strengths, minima):
        """A line for each pass; sectors count from 1."""
        staying, number = list(range(len(strengths))), 0
        while number == 0 or low:
            number += 1
            total = sum(strengths[i] for i in staying)
            low = [i for i in staying if rest * strengths[i] < minima[i] * total]
            yield f"pass {number}: T' {rest}, strengths {total}, leaving {' '.join(str(i + 1) for i in low) or 'none'}"
            rest -= sum(minima[i] for i in low)
            staying = [i for i in staying if i not in low]


class Stream(Example):
    """Commands by their names, or `raw` bytes; every printed line is stated, in order"""

    CODES = {name: (code, widths) for code, (name, widths) in stream.COMMANDS.items()}

    def __init__(self, t, where, frames):
        super().__init__(t, where, frames)
        self.octets = b""
        self.job = stream.Job()

    def take(self, line):
        before = self.octets
        octets = self.bytes_of(*line.split())
        self.octets += octets
        self.facts = facts_of(at=len(before), bytes=octets.hex(" ")) + stream.run(self.octets).decode().splitlines()
        command, _ = stream.read_command(octets)
        if not isinstance(command, Refused) and b"R" not in stream.run(before):
            self.job, _ = stream.step(self.job, command)
        self.facts += facts_of(units=len(self.job.numbers), panel=self.job.panel, W=self.job.weights)
        self.facts += facts_of(shares=self.job.shares, relatives=self.job.relatives)
        record = self.job.chain
        self.facts += ["no chain"] if record is None else facts_of(index=record.index, closes=record.closes)

    def bytes_of(self, word, *operands):
        if word == "raw":
            return bytes(int(octet, 16) for octet in operands)
        code, widths = self.CODES[word]
        numbers = [int(operand).to_bytes(width, "big") for operand, width in zip(operands, widths, strict=True)]
        return bytes([code]) + b"".join(numbers)

    def finish(self, claims):
        expected = stream.run(self.octets)
        printed = "".join(f"{claim}\n" for claim in claims if re.match("[PQCR] ", claim)).encode()
        self.t.check(printed == expected, f"{self.where}: every printed line, in order", (printed, expected))
        self.same(library.run(self.octets, b"\0" * len(expected)), (0, len(expected), expected))


class Word(Example):
    """part: its bytes as numbers"""

    def reckon(self):
        part = bytes(self.given["part"])
        answer = stream.front_word(part)
        self.same(library.front_word(part), answer)
        self.answers(answer, **({} if isinstance(answer, Refused) else {"word": answer}))
class Sheet(Example):
    """name, new, old and the bytes of the buffer; stated are c, the rest, and what stands in the figure's and the change's columns"""

    def take(self, line):
        word, _, rest = line.partition(" ")
        if word == "name":
            self.given["name"] = rest.encode()
        else:
            super().take(line)

    def reckon(self):
        name, new, old = self.given["name"], self.one("new"), self.one("old")
        out = b"." * self.one("buffer")
        answer, after = sheet.sheet(name, new, old, out)
        self.same(library.sheet(name, new, old, out), (answer, after))
        if isinstance(answer, Refused):
            self.answers(answer)
        else:
            figure, change = (after[start : start + 14].decode().strip() for start in (20, 34))
            self.answers(answer, c=answer.c, rest=answer.rest, figure=figure, change=change)


KINDS = {
    "frame": Frame,
    "take-all": TakeAll,
    "draw": Draw,
    "rotate": Rotate,
    "draw-poisson": PoissonDraw,
    "rotate-poisson": PoissonRotate,
    "take-all-units": TakeAllUnits,
    "draw-kept": KeptDraw,
    "rotate-kept": KeptRotate,
    "chain": Chain,
    "total": Total,
    "sample": Sample,
    "stream": Stream,
    "word": Word,
    "sheet": Sheet,
}


def examples():
    """Line number in the document, kind (and name, of a frame) and lines of each block."""
    for block in re.finditer(r"^```example\n(.*?)^```$", TEXT, re.MULTILINE | re.DOTALL):
        kind, *lines = block[1].splitlines()
        yield TEXT[: block.start()].count("\n") + 2, kind.split(), lines


def groups(lines):
    """Lines that hand in, and the facts stated below them."""
    inputs, claims = [], []
    for line in lines:
        if not line.startswith("="):
            if claims:
                yield inputs, claims
                inputs, claims = [], []
            inputs.append(line)
        else:
            claims.append(" ".join(line[1:].split()))
    yield inputs, claims


def worked(t):
    """The example and the facts stated, for each group of each example, when it has been handed in."""
    frames = {}
    for at, (kind, *name), lines in examples():
        example = KINDS[kind](t, f"METHOD.md, example in line {at}", frames)
        stated = []
        for inputs, claims in groups(lines):
            for line in inputs:
                example.take(line)
            example.reckon()
            example.facts = set(example.facts)
            yield example, claims
            stated += claims
        example.finish(stated)
        frames.update((its, example.given) for its in name)


def test_examples(t):
    for example, claims in worked(t):
        t.check(claims, f"{example.where}: a group without a fact", claims)
        for claim in claims:
            right = claim in example.facts or claim in example.answer
            t.check(right, f"{example.where}: {claim!r} does not come out", sorted(example.facts)[:40] + example.answer)
        for fact in example.answer:
            t.check(fact in claims, f"{example.where}: the answer {fact!r} is not stated", claims)


def test_each_kind_has_examples(t):
    kinds = [kind for _, (kind, *_), _ in examples()]
    for kind in KINDS:
        t.check(kinds.count(kind) >= 2, f"METHOD.md: fewer than two examples of {kind}", kinds)
    t.check(TEXT.count("```example") == len(kinds), "METHOD.md: every example is read", kinds)


def test_a_changed_digit_is_seen(t):
    """No stated fact is still one with another digit."""
    for example, claims in worked(t):
        for claim in claims:
            for digit in re.finditer(r"\d", claim):
                other = str((int(digit[0]) + 1) % 10)
                changed = claim[: digit.start()] + other + claim[digit.end() :]
                right = changed in example.facts or changed in example.answer
                t.check(not right, f"{example.where}: {claim!r} could be {changed!r}")


# Tables


def table(heading):
    """The rows of the first table below a heading."""
    _, below = TEXT.split(f"\n{heading}\n")
    rows = re.search(r"(?:^\|.*\n)+", below, re.MULTILINE)[0].splitlines()[2:]
    return [[cell.strip() for cell in row.strip("|").split("|")] for row in rows]


NUMBER = r"10\^\d+|\d{1,3}(?:,\d{3})+|\d+"


def value_of(text):
    """A number with commas, or a power of ten."""
    base, _, power = text.partition("^")
    return int(base) ** int(power) if power else int(text.replace(",", ""))


def values_in(text):
    """Numbers as the text has them: with commas at the thousands."""
    return [value_of(number) for number in re.findall(NUMBER, text)]


def numbers_in(cell):
    """A list of small numbers, with commas between them."""
    return [int(number) for number in re.findall(r"\d+", cell)]


LIMIT = {name: int(value) for name, value in re.findall(r"^(\w+) = (\d+)$", LIMITS, re.MULTILINE)}


def test_limits(t):
    """The table has each limit of the definitions, with its value."""
    stated = {name.strip("`"): values_in(value) for name, value, _ in table("### Limits and scales")}
    t.check(stated.keys() == LIMIT.keys(), "METHOD.md has every limit", sorted(stated.keys() ^ LIMIT.keys()))
    for name, values in stated.items():
        t.check(values == [LIMIT.get(name)], f"METHOD.md: {name} is {LIMIT.get(name)}", values)


def test_numbers_of_the_rules(t):
    """Outside the examples every number over 999 is a limit, one below it, or made of two."""
    rules = re.sub(r"^### Examples$.*?(?=^## )", "", TEXT, flags=re.MULTILINE | re.DOTALL)
    rules = rules.replace("2016|18", "")
    index_of_100 = LIMIT["lowest_index"] * 10
    made = {LIMIT["link_scale"] * LIMIT["relative_scale"], LIMIT["share_scale"] * LIMIT["relative_scale"], index_of_100}
    known = made | {limit - below for limit in LIMIT.values() for below in (0, 1)}
    for number in re.findall(NUMBER, rules):
        t.check(value_of(number) < 1_000 or value_of(number) in known, f"METHOD.md: {number} is no limit")


def test_commands(t):
    """Bytes, names and widths, and the length of the whole command."""
    stated = {int(code): (name, tuple(numbers_in(operands)), int(length)) for code, name, operands, length in table("### Commands")}
    expected = {code: (name, widths, 1 + sum(widths)) for code, (name, widths) in stream.COMMANDS.items()}
    t.check(stated == expected, "METHOD.md: the commands", (stated, expected))


def record_of(data):
    return chain.Record(*(data[name] for name in ("units", "weights", "index", "closes", "links")))


def opening_of(data):
    """What a renewal brings beside its record."""
    return {name: data[name] for name in ("W", "g", "a", "marks", "G") if name in data}


def number_of(answer):
    """A refusal's number without what comes with it."""
    return Refused(answer.number) if isinstance(answer, Refused) else answer


def year_answer(data):
    lists = (data[name] for name in ("first", "second", "third", "last", "figures"))
    return chain.year(record_of(data), *lists)[2]


ENTRIES = {
    "take-all": (generate.take_all_cases, lambda data: frame.take_all_entry(**data)[0]),
    "take-all-units": (generate.take_all_units_cases, lambda data: frame.take_all_units(**data)[0]),
    "draw": (generate.draw_cases, lambda data: frame.draw(**data)[0]),
    "draw-kept": (generate.kept_draw_cases, lambda data: kept.draw(**data)[0]),
    "rotate": (generate.rotate_cases, lambda data: frame.rotate(**data)[0]),
    "rotate-kept": (generate.kept_rotate_cases, lambda data: kept.rotate(**data)[0]),
    "open": (generate.open_cases, lambda data: chain.open_chain(**data)),
    "open with G": (generate.outside_cases, lambda data: outside.open_outside(**data)),
    "quarter": (generate.quarter_cases, lambda data: chain.quarter(record_of(data), data["p"])[1]),
    "close": (generate.close_cases, lambda data: chain.close(record_of(data), data["p"])[1]),
    "year": (generate.year_cases, lambda data: number_of(year_answer(data))),
    "renew": (generate.renew_cases, lambda data: panels.renew(record_of(data), **opening_of(data))[1]),
    "renew with G": (generate.renew_outside_cases, lambda data: panels.renew(record_of(data), **opening_of(data))[1]),
    "total": (generate.total_cases, lambda data: chain.total(**data)),
    "read": (generate.reader_cases, lambda data: stream.read_command(data["part"])[0]),
    "load": (generate.load_cases, lambda data: load.load(**data)[0]),
    "word": (generate.word_cases, lambda data: stream.front_word(data["part"])),
    "sample": (generate.sample_cases, lambda data: sample.share(**data)),
    "import": (generate.register_cases, lambda data: number_of(register.import_lists(**data)[0])),
    "sheet": (generate.sheet_cases, lambda data: sheet.sheet(**data)[0]),
    "write": (generate.write_cases, lambda data: writing.write(**data)[0]),
    "read-all": (generate.read_all_cases, lambda data: writing.read_all(**data)[0]),
}


def test_orders_of_the_entries(t):
    """The numbers of each entry, and of any two at once the one that is answered."""
    stated = {entry: numbers_in(order) for entry, order in table("### Orders of the entries")}
    t.check(list(stated) == list(ENTRIES), "METHOD.md: the entries", stated)
    for entry, (cases, answer_of) in ENTRIES.items():
        met, pairs = set(), set()
        for case in cases(t.seed, 0):
            if not case.intends:
                continue
            answer = answer_of(case.data)
            t.check(answer == Refused(case.intends), f"{entry}: the refusal that the case means", case)
            met.add(case.intends)
            also = re.search(r"; also (\d+): ", case.what)
            if also:
                pairs.add((case.intends, int(also[1])))
        order = stated.get(entry, [])
        t.check(met == set(order), f"METHOD.md: the refusals of {entry} are {sorted(met)}", order)
        # one fault each: a part can hardly have two; in a stream the first command that has one decides, and in a year the first call
        if entry not in ("read", "read-all", "year"):
            wrong = sorted(pairs ^ set(combinations(order, 2)))
            t.check(not wrong, f"METHOD.md: of any two refusals of {entry} the first is answered", wrong)


def test_orders_in_the_text(t):
    """The pages give the orders of the table."""
    named = re.findall(r"\b[Aa]n? (draw|rotation|open|quarter|close)(?: tests)? ((?:\d+, )+\d+)", TEXT)
    t.check([name for name, _ in named] == ["draw", "rotation", "open", "quarter", "close"], "METHOD.md: each once", named)
    for name, order in named:
        entry = {"rotation": "rotate"}.get(name, name)
        t.check(numbers_in(order) == entry_order(entry), f"METHOD.md: the order of a {name}", order)


def entry_order(entry):
    """An entry's order as the table has it; nothing for a command that calls none."""
    return dict((name, numbers_in(order)) for name, order in table("### Orders of the entries")).get(entry, [])


def refused_command(octets):
    """Number and command name of the last line `R number offset`; no name where no command was read."""
    last = stream.run(octets).splitlines()[-1:] or [b""]
    if not last[0].startswith(b"R "):
        return None
    number, offset = map(int, last[0].split()[1:])
    command, _ = stream.read_command(octets[offset:])
    return number, "any" if isinstance(command, Refused) else command[0]


def test_orders_of_the_stream(t):
    """Each command's numbers: no other was met by a stream, and each was."""
    stated = {command: numbers_in(order) for command, order in table("### Orders of the stream")}
    met = {command: set() for command in stated}
    for case in generate.stream_cases(t.seed, 20):
        refused = refused_command(case.data["stream"])
        if refused:
            number, command = refused
            t.check(number in stated[command], f"METHOD.md: {command} can be refused by {number}", case)
            met[command].add(number)
    for command, order in stated.items():
        t.check(met[command] == set(order), f"METHOD.md: the refusals of {command}", sorted(met[command] ^ set(order)))
        inner = [number for number in order if number not in (15, 16, 17, 18, 19, 20)]
        outer = [number for number in order if number not in inner]
        t.check(order == outer + inner, f"METHOD.md: {command}: 15 to 20 come first", order)
        entry = [number for number in entry_order(command) if number in inner]
        t.check(inner == entry, f"METHOD.md: {command}: then the operation's, in its order", (inner, entry))


# The numbers in the words of a refusal; those that are not named have none.
INDEX = [LIMIT["lowest_index"], LIMIT["highest_index"]]
RELATIVE = [LIMIT["lowest_relative"], LIMIT["highest_relative"], 0]
SECTORS = [LIMIT["most_sectors"], LIMIT["sector_scale"], *INDEX]
WORDS = {
    1: [LIMIT["most_frame"]],
    3: [0, LIMIT["most_turnover"]],
    4: [LIMIT["random_range"] - 1],
    5: [0, LIMIT["most_panel"]],
    7: [LIMIT["fraction_scale"], LIMIT["most_panel"]],
    8: [0, LIMIT["steps"] - 1],
    9: [LIMIT["most_panel"]],
    10: [0, LIMIT["most_weight"]],
    11: [LIMIT["share_scale"], 0],
    12: INDEX,
    13: RELATIVE,
    14: SECTORS,
    15: [LIMIT["most_stream"]],
    16: [min(stream.COMMANDS), max(stream.COMMANDS)],
    20: [LIMIT["most_held"]],
    21: [LIMIT["least_weight"]],
    22: [LIMIT["most_weight"]],
    23: INDEX,
    25: [LIMIT["most_panel"], LIMIT["most_turnover"], 0],
    26: [LIMIT["most_frame"]],
    29: [0, LIMIT["share_scale"], 0],
    30: [0, LIMIT["threshold_scale"], LIMIT["most_panel"]],
    31: [LIMIT["most_sectors"], LIMIT["most_interviews"]],
    32: [LIMIT["name_columns"], LIMIT["lowest_printable"], LIMIT["highest_printable"], *INDEX, LIMIT["line_bytes"]],
    33: [LIMIT["state_range"], 0, LIMIT["most_frame"]],
}


def test_refusals(t):
    """All numbers, each with the limits in its words, and with the entries that the orders name for it."""
    rows = table("### All refusals")
    t.check([int(row[0]) for row in rows] == [*range(1, 36)], "METHOD.md: each number", [row[0] for row in rows])
    orders = {entry: numbers_in(order) for entry, order in table("### Orders of the entries")}
    commands = [number for _, order in table("### Orders of the stream") for number in numbers_in(order)]
    for number, words, places in rows:
        t.check(values_in(words) == WORDS.get(int(number), []), f"METHOD.md: the limits of {number}", words)
        named = [entry for entry, order in orders.items() if int(number) in order]
        named += ["stream"] if int(number) in commands else []
        t.check(places.split(", ") == named, f"METHOD.md: who answers {number}", (places, named))


def test_refusals_in_the_text(t):
    """The pages' sentences have the same limits; 9 is also that of a call, which has none."""
    sentences = re.findall(r"^- (\d+): (.*)$", TEXT, re.MULTILINE)
    numbers = [int(number) for number, _ in sentences]
    t.check(numbers == [*range(1, 7), 6, 7, 25, 26, 8, *range(9, 14), 21, 22, 9, 29, 21, 9, 13, 21, 22, 23, 24], "METHOD.md: each in its order", numbers)
    for number, words in sentences:
        wanted = [WORDS.get(int(number), []), []] if number == "9" else [WORDS.get(int(number), [])]
        t.check(values_in(words) in wanted, f"METHOD.md: the limits of {number}", words)


def test_definitions_named(t):
    """Every single name in back quotes is a definition, but for the program's and those of the examples."""
    prose = re.sub(r"```.*?```", "", TEXT, flags=re.DOTALL)
    names = set(re.findall(r"`(\w+)`", prose)) - {"chainrun", "distance", "bound", "multiplier"}
    for name in sorted(names):
        defined = re.search(rf"^\s*(?:abbrev |unfoldable |pub |record )*{name}\s*[:(]", DEFINITIONS, re.MULTILINE)
        t.check(defined, f"METHOD.md: no definition is called {name}")
