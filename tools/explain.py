"""Says in words what a refused job was refused by: the command, and the unit, the place and the value to blame.

The program alone judges a job. Here the accepted commands are gone over again, with the panel and the figures that the program
printed, only to find what to point at; where nothing is found the words of the number stand alone.
"""

from limits import (
    HIGHEST_INDEX,
    HIGHEST_RELATIVE,
    LEAST_WEIGHT,
    LINK_SCALE,
    LOWEST_INDEX,
    LOWEST_RELATIVE,
    MOST_CLOSES,
    MOST_HELD,
    MOST_PANEL,
    MOST_STREAM,
    MOST_TURNOVER,
    MOST_WEIGHT,
    RANDOM_RANGE,
    RELATIVE_SCALE,
    SHARE_SCALE,
)
from words import words


def explained(commands, printed, length):
    """The lines that explain the refusal in what the program printed; none where it refused nothing."""
    last = printed.splitlines()[-1:]
    if not last or not last[0].startswith("R "):
        return []
    number, offset = (int(word) for word in last[0].split()[1:])
    told = f"refusal {number}: {{}}"
    meaning = f"refusal {number} is: {words(number)} (docs/REFUSALS.md)"
    if number == 15:
        return [told.format(f"the stream of the whole job has {length:,} bytes, over {MOST_STREAM:,}"), meaning]
    command = next((c for c in commands if c.offset == offset), None)
    if command is None:
        return [f"byte {offset}: " + told.format(words(number))]
    history = History(printed)
    for before in commands:
        if before is command:
            break
        history.accept(before)
    blame = history.blame(number, command)
    if not blame:
        return [f"{command.place_in_job} ({command.word}): " + told.format(words(number))]
    return [f"{command.place_in_job} ({command.word}): " + told.format(blame), meaning]


def given_in(command):
    return f"given in {command.place_in_job}"


class History:
    """What a job holds after its accepted commands."""

    def __init__(self, printed):
        self.printed = iter(printed.splitlines())
        self.units = []  # commands
        self.panel, self.weights = [], []
        self.shares, self.relatives = {}, {}  # place -> command
        self.opened = None  # shares of the open chain, one a place
        self.v, self.index, self.closes = [], 0, 0

    # accepted commands

    def accept(self, command):
        getattr(self, f"accept_{command.word}")(command)

    def accept_unit(self, command):
        self.units.append(command)

    def accept_draw(self, command):
        lines = [next(self.printed).split() for _ in range(command.operands[0])]
        self.panel = [int(number) for _, number, _ in lines]
        self.weights = [int(weight) for _, _, weight in lines]
        self.shares, self.relatives, self.opened = {}, {}, None

    def accept_share(self, command):
        self.shares[command.operands[0]] = command

    def accept_relative(self, command):
        self.relatives[command.operands[0]] = command

    def accept_open(self, command):
        self.opened = self.all_shares()
        self.v = [v for _, v in self.opening_weights()]
        self.index, self.closes, self.relatives = command.operands[0], 0, {}

    def accept_quarter(self, command):
        next(self.printed)
        self.relatives = {}

    def accept_close(self, command):
        self.v = self.closed_weights()
        self.index = int(next(self.printed).split()[1])
        self.closes, self.relatives = self.closes + 1, {}

    # what is held, one number a place

    def all_shares(self):
        return [self.shares[p].operands[1] if p in self.shares else SHARE_SCALE for p in range(len(self.panel))]

    def all_relatives(self):
        return [self.relatives[p].operands[1] if p in self.relatives else 0 for p in range(len(self.panel))]

    def opening_weights(self):
        """u and v of each place."""
        pairs = []
        for weight, share, relative in zip(self.weights, self.all_shares(), self.all_relatives()):
            u = weight * share // SHARE_SCALE
            pairs.append((u, u * relative // RELATIVE_SCALE))
        return pairs

    def closed_weights(self):
        return [v * p // RELATIVE_SCALE for v, p in zip(self.v, self.all_relatives())]

    def figure(self):
        """F of a quarter or close with the relatives held."""
        link = sum(v * p for v, p in zip(self.v, self.all_relatives())) * LINK_SCALE // sum(self.v)
        return self.index * link // (RELATIVE_SCALE * LINK_SCALE)

    def at(self, place):
        return f"place {place} (unit {self.panel[place]})"

    # what is to blame

    def blame(self, number, command):
        find = getattr(self, f"blame_{number}", None)
        return find(command) if find else ""

    def blame_1(self, command):
        return "no unit is given before the draw" if not self.units else ""

    def blame_2(self, command):
        for before, unit in zip(self.units, self.units[1:]):
            if unit.operands[0] <= before.operands[0]:
                number, last = unit.operands[0], before.operands[0]
                return f"unit {number}, {given_in(unit)}, is not above unit {last}, {given_in(before)}"
        return ""

    def blame_3(self, command):
        total = 0
        for unit in self.units:
            number, turnover, _ = unit.operands
            total += turnover
            if turnover == 0:
                return f"turnover 0 of unit {number}, {given_in(unit)}"
        return f"the turnovers of {len(self.units)} units add to {total}, over {MOST_TURNOVER:,}"

    def blame_4(self, command):
        for unit in self.units:
            number, _, random = unit.operands
            if random >= RANDOM_RANGE:
                return f"random number {random} of unit {number}, {given_in(unit)}, is over {RANDOM_RANGE - 1:,}"
        return f"start {command.operands[1]} is over {RANDOM_RANGE - 1:,}"

    def blame_5(self, command):
        size = command.operands[0]
        if size == 0:
            return "size 0"
        if size > MOST_PANEL:
            return f"size {size} is over {MOST_PANEL}"
        return f"size {size} is over the {len(self.units)} units given"

    def blame_10(self, command):
        return f"the W of {len(self.weights)} units add to {sum(self.weights)}, over {MOST_WEIGHT:,}"

    def blame_11(self, command):
        for place, share in enumerate(self.all_shares()):
            if share > SHARE_SCALE:
                return f"share {share} of {self.at(place)}, {given_in(self.shares[place])}, is over {SHARE_SCALE:,}"
        return "the shares of all units are 0"

    def blame_12(self, command):
        return f"start index {command.operands[0]} is outside {LOWEST_INDEX:,} to {HIGHEST_INDEX:,} (100 is 1,000,000,000)"

    def blame_13(self, command):
        shares = self.all_shares() if command.word == "open" else self.opened
        found = [why for why in map(self.bad_relative, range(len(self.panel)), shares) if why]
        if not found:
            return ""
        left = len(found) - 1
        return found[0] + (f" (and {left} further place{'s' if left > 1 else ''})" if left else "")

    def bad_relative(self, place, share):
        setting = self.relatives.get(place)
        relative = setting.operands[1] if setting else 0
        whose = f"relative {relative} of {self.at(place)}, " + (given_in(setting) if setting else "not set since the last call")
        if share == 0:
            return f"{whose}, is not 0 though the unit's share is 0" if relative else ""
        if relative == 0:
            return f"{whose}, is 0 for a unit that is present"
        if not LOWEST_RELATIVE <= relative <= HIGHEST_RELATIVE:
            return f"{whose}, is outside {LOWEST_RELATIVE:,} to {HIGHEST_RELATIVE:,} ({RELATIVE_SCALE:,} is no change)"
        return ""

    def blame_18(self, command):
        place, size = command.operands[0], len(self.panel)
        return f"place {place} of a panel of {size}; the places are 0 to {size - 1}" if size else f"place {place} before a draw"

    def blame_19(self, command):
        if command.word == "open":
            return "an open before a draw"
        return f"a {command.word} before an open" if self.panel else f"a {command.word} before a draw and an open"

    def blame_20(self, command):
        return f"unit {command.operands[0]} is one more than the {MOST_HELD:,} that a job holds"

    def blame_21(self, command):
        opening = command.word == "open"
        shares = self.all_shares() if opening else self.opened
        pairs = self.opening_weights() if opening else [(LEAST_WEIGHT, v) for v in self.closed_weights()]
        for place, (share, (u, v)) in enumerate(zip(shares, pairs)):
            for letter, weight in (("u", u), ("v", v)):
                if share and weight < LEAST_WEIGHT:
                    return f"{letter} of {self.at(place)} is {weight} at this {command.word}, below {LEAST_WEIGHT:,}"
        return ""

    def blame_22(self, command):
        weights = [v for _, v in self.opening_weights()] if command.word == "open" else self.closed_weights()
        return f"the v add to {sum(weights)} at this {command.word}, over {MOST_WEIGHT:,}"

    def blame_23(self, command):
        return f"the figure would be {self.figure()}, outside {LOWEST_INDEX:,} to {HIGHEST_INDEX:,}"

    def blame_24(self, command):
        return f"the chain has had {self.closes} closes of at most {MOST_CLOSES}; a draw and an open begin another"
