"""A job in readable lines: its commands, the bytes of its stream, and what is odd about it.

    unit NUMBER TURNOVER RANDOM     a unit of the frame: number, turnover in euros, permanent random number
    draw SIZE START                 draw a panel; its units stand at places 0, 1, 2, .. by rising unit number
    share PLACE SHARE               a unit's share of the domain, in ten-thousandths
    relative PLACE RELATIVE         a unit's price relative, in hundred-thousandths (100000 is no change)
    open START_INDEX                open a chain; an index of 100 is 1000000000
    quarter                         the figure of a quarter
    close                           the figure of a year's close, which the chain goes on from

A panel unit may be named by its number: share unit NUMBER SHARE, relative unit NUMBER RELATIVE.
Before an open a relative leads from the reference year to the opening. After it, it is measured
against the opening, or against the last accepted close, and never against the quarter before:
2 percent, and 2 percent more in the next quarter, are 102000 and 104040; 102000 twice gives the same
figure twice.
Empty lines and what follows a # are left out.
"""

from dataclasses import dataclass
from typing import Optional

from limits import MOST_STREAM
from system import shown

# Word -> command byte and, for each operand, its name and its width in bytes.
COMMANDS = {
    "unit": (1, [("number", 4), ("turnover", 8), ("random number", 4)]),
    "draw": (2, [("size", 1), ("start", 4)]),
    "share": (3, [("place", 1), ("share", 2)]),
    "relative": (4, [("place", 1), ("relative", 4)]),
    "open": (5, [("start index", 8)]),
    "quarter": (6, []),
    "close": (7, []),
}
WORD_OF = {code: word for word, (code, _) in COMMANDS.items()}
BY_PLACE = ("share", "relative")
USES_RELATIVES = ("open", "quarter", "close")
MOST_DIGITS = 20  # of the largest number in eight bytes
MOST_TOLD = 10  # bad lines, or warnings, of one job
BYTE_ORDER_MARK = b"\xef\xbb\xbf"
UTF_16_MARKS = (b"\xff\xfe", b"\xfe\xff")


class BadJob(Exception):
    """Lines that cannot be turned into bytes; one message a line."""

    def __init__(self, messages):
        super().__init__("\n".join(messages))
        self.messages = messages


@dataclass
class Command:
    """One command: where it stands, its word and its numbers; `unit` where a panel unit was named by its number."""

    word: str
    operands: list
    line: int = 0  # 0 in a job that came as a stream
    offset: int = 0
    unit: Optional[int] = None

    @property
    def place_in_job(self):
        return f"line {self.line}" if self.line else f"byte {self.offset}"

    @property
    def octets(self):
        code, operands = COMMANDS[self.word]
        numbers = zip(self.operands, operands)
        return bytes([code]) + b"".join(number.to_bytes(width, "big") for number, (_, width) in numbers)


# Lines


def number_of(name, width, text):
    """One operand. What the program refuses is left to it: only what no byte can hold is refused here."""
    if not (text.isascii() and text.isdigit()):
        raise ValueError(f"{name} is '{shown(text)}', not a number in decimal digits")
    digits = text.lstrip("0") or "0"
    if len(digits) > MOST_DIGITS or int(digits) >= 256**width:
        raise ValueError(f"{name} {shown(text)} does not fit in {width} byte{'s' if width > 1 else ''}")
    return int(digits)


def form_of(word):
    names = [name.upper().replace(" ", "_") for name, _ in COMMANDS[word][1]]
    form = " ".join([word, *names])
    return f"{form}, or {word} unit NUMBER {names[1]}" if word in BY_PLACE else form


def command_of(line):
    """The command of one line; None for an empty line or a comment."""
    words = line.split("#", 1)[0].split()
    if not words:
        return None
    word, *texts = words
    if word not in COMMANDS:
        raise ValueError(f"unknown command '{shown(word)}'; known are {', '.join(COMMANDS)}")
    operands = COMMANDS[word][1]
    unit = None
    by_unit = word in BY_PLACE and texts[:1] == ["unit"]
    if by_unit:
        texts = texts[1:]
    if len(texts) != len(operands):
        count = f"{len(texts)} number{'' if len(texts) == 1 else 's'}"
        raise ValueError(f"{count} given; the line has the form: {form_of(word)}")
    if by_unit:
        unit = number_of("unit number", 4, texts[0])
        texts = ["0", texts[1]]
    numbers = [number_of(name, width, text) for (name, width), text in zip(operands, texts)]
    return Command(word, numbers, unit=unit)


def text_of(data, warnings):
    """The file as text. Comments may hold any bytes; a byte-order mark at the start is taken."""
    if data.startswith(UTF_16_MARKS):
        raise BadJob(["line 1: the file is UTF-16 text; save it as UTF-8 or plain text"])
    if b"\0" in data:
        raise BadJob(["the file holds zero bytes, so it is no text; ./run.sh --stream FILE runs a stream of bytes"])
    if data.startswith(BYTE_ORDER_MARK):
        data = data[len(BYTE_ORDER_MARK) :]
    text = data.decode("utf-8", errors="replace").replace("\r\n", "\n")
    if "\r" in text:
        warnings.append("a carriage return stands without a line feed; it is taken as the end of a line")
    return text.replace("\r", "\n")


def commands_of(data):
    """The commands of a file of lines, and warnings. Raises BadJob with the lines that are none."""
    commands, bad, warnings = [], [], []
    for number, line in enumerate(text_of(data, warnings).split("\n"), start=1):
        try:
            command = command_of(line)
        except ValueError as why:
            bad.append(f"line {number}: {why}")
            continue
        if command is not None:
            command.line = number
            commands.append(command)
    if bad:
        raise BadJob(few(bad, "bad lines"))
    set_offsets(commands)
    return commands, warnings


def few(messages, what):
    """The first messages, and how many more there are."""
    left = len(messages) - MOST_TOLD
    return messages[:MOST_TOLD] + ([f"and {left} further {what}"] if left > 0 else [])


def set_offsets(commands):
    at = 0
    for command in commands:
        command.offset = at
        at += len(command.octets)


def stream_of(commands):
    return b"".join(command.octets for command in commands)


def commands_in(stream):
    """The commands of a stream as far as they can be read."""
    commands, at = [], 0
    while at < len(stream) and stream[at] in WORD_OF:
        word = WORD_OF[stream[at]]
        widths = [width for _, width in COMMANDS[word][1]]
        if at + 1 + sum(widths) > len(stream):
            break
        command = Command(word, [], offset=at)
        at += 1
        for width in widths:
            command.operands.append(int.from_bytes(stream[at : at + width], "big"))
            at += width
        commands.append(command)
    return commands


def looks_like_lines(data):
    """Whether bytes that were given as a stream begin as a file of lines does."""
    return data.lstrip().startswith((b"#", BYTE_ORDER_MARK, *(word.encode() for word in COMMANDS)))


# Panel units named by their number


def place_units(commands, run):
    """Fills in the places of units that are named by number, and answers the draw or unit that is refused, if any.

    A panel depends on the unit and draw commands alone, so one run of the program over these gives every panel.
    Past a refused command nothing is run, and the places below it stay 0.
    """
    if not any(command.unit is not None for command in commands):
        return None
    if len(stream_of(commands)) > MOST_STREAM:
        return commands[0]
    frame = [Command(c.word, c.operands, line=c.line) for c in commands if c.word in ("unit", "draw")]
    set_offsets(frame)
    lines = run(stream_of(frame)).decode("ascii").splitlines()
    refused = int(lines[-1].split()[2]) if lines and lines[-1].startswith("R ") else None
    refused = next((c for c in frame if c.offset == refused), None)
    drawn = iter([int(line.split()[1]) for line in lines if line.startswith("P ")])
    numbers, panel, draw, bad = set(), None, None, []
    for command in commands:
        if refused is not None and command.line == refused.line:
            break
        if command.word == "unit":
            numbers.add(command.operands[0])
        elif command.word == "draw":
            panel, draw = [next(drawn) for _ in range(command.operands[0])], command
        elif command.unit is not None:
            why = not_in_panel(command.unit, panel, draw, numbers)
            if why:
                bad.append(f"line {command.line}: {why}")
            else:
                command.operands[0] = panel.index(command.unit)
    if bad:
        raise BadJob(few(bad, "lines"))
    return refused


def not_in_panel(unit, panel, draw, numbers):
    """Why a unit has no place, or nothing."""
    if panel is None:
        return f"unit {unit} is named before a draw: there is no panel yet"
    if unit in panel:
        return ""
    known = "" if unit in numbers else " and no unit line gives it"
    listed = ", ".join(str(number) for number in panel[:10]) + (", .." if len(panel) > 10 else "")
    return f"unit {unit} is not in the panel drawn in line {draw.line} ({listed}){known}"


# What is odd


def warnings_of(commands, refused=None):
    """What a job probably does not mean, in words. `place_units` comes first; what it found refused is where the looking ends."""
    if not commands:
        return ["the job has no command, so nothing is printed"]
    if not any(command.word == "draw" for command in commands):
        return ["the job has no draw, so no unit is judged and there is no panel"]
    warnings = []
    waiting = {"share": {}, "relative": {}, "unit": {}}
    for command in commands:
        if refused is not None and command.line == refused.line:
            return warnings
        if command.word in BY_PLACE:
            set_again(command, waiting[command.word], warnings)
        elif command.word == "unit":
            waiting["unit"][command.offset] = command
        elif command.word == "draw":
            waiting["unit"].clear()
            for word in BY_PLACE:
                unused(waiting[word], word, "the draw that follows drops", warnings)
        elif command.word in USES_RELATIVES:
            waiting["relative"].clear()
            if command.word == "open":
                waiting["share"].clear()
    unused(waiting["unit"], "unit", "no draw uses", warnings)
    unused(waiting["share"], "share", "no open uses", warnings)
    unused(waiting["relative"], "relative", "no open, quarter or close uses", warnings)
    return warnings


def set_again(command, waiting, warnings):
    place, value = command.operands
    before = waiting.get(place)
    if before is not None:
        whose = f"place {place}" if command.unit is None else f"place {place} (unit {command.unit})"
        warnings.append(
            f"{command.place_in_job}: the {command.word} of {whose} is set to {value} again before a call uses it; "
            f"{before.operands[1]} of {before.place_in_job} is lost"
        )
    waiting[place] = command


def unused(waiting, word, why, warnings):
    """A warning of commands that wait for nothing, which are then forgotten."""
    if waiting:
        first, last = list(waiting.values())[0], list(waiting.values())[-1]
        where = first.place_in_job if first is last else f"{first.place_in_job} to {last.place_in_job}"
        warnings.append(f"{where}: {why} {'this' if first is last else 'these'} {word}{'' if first is last else 's'}")
    waiting.clear()
