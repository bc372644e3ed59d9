"""Cases of document 02, [4]: lists of commands with a lent buffer, and streams with six lent lists."""

from . import U32, U64, cases, changed, faults_of, limits_of
from .streams import CHAIN_A, LISTING, QUARTER, a_good_stream, at_full_length, junk_bytes, open_at, share, unit

TOPS = {"kinds": 255, "sizes": 255, "shares": 65_535, "numbers": U32, "randoms": U32, "amounts": U64}
WIDTHS = {1: 17, 2: 6, 3: 4, 4: 6, 5: 9}


def needed(kinds):
    return sum(WIDTHS.get(kind, 1) for kind in kinds)


def lists_of(rng, kinds):
    """Any operands for these commands, also where a command has none; often the largest or 0."""
    lists = {name: [rng.choice([0, 1, top, rng.randrange(top + 1)]) for _ in kinds] for name, top in TOPS.items()}
    return dict(lists, kinds=list(kinds))


def call(rng, kinds, room):
    return dict(lists_of(rng, kinds), out=junk_bytes(rng, room))


def some_list(rng):
    kinds = [rng.randint(1, 7) for _ in range(rng.randint(1, 12))]
    return call(rng, kinds, needed(kinds) + rng.choice([0, 1, 9]))


def same(kinds, room, value=9):
    """Every operand is this value, and so is every byte of the buffer 170."""
    return dict({name: [value] * len(kinds) for name in TOPS}, kinds=list(kinds), out=bytes([170]) * room)


def longer(name):
    def spoil(rng, data):
        data[name].append(1)

    return spoil


def shorter(name):
    def spoil(rng, data):
        data[name].pop()

    return spoil


def too_long(rng, data):
    """15, with lists that stay equal."""
    kinds = rng.choice([[6] * 32_769, [8] * 32_769, [1] * 1_927 + [6] * 10])
    data.update(same(kinds, len(data["out"])))


def unknown(kind):
    """16, the last command of the list."""

    def spoil(rng, data):
        data["kinds"][-1] = kind

    return spoil


def short_buffer(rng, data):
    data.update(out=data["out"][: max(0, needed(data["kinds"]) - 1)])


UNEQUAL = {f"{how.__name__} {name}": how(name) for name in TOPS for how in (longer, shorter)}
LATE = {
    15: {"32,769 bytes": too_long},
    16: {"command 0": unknown(0), "command 8": unknown(8), "command 255": unknown(255)},
    27: {"a buffer one byte short": short_buffer},
}
FULL = [1] * 1_927 + [6] * 9  # 32,768 bytes


@cases
def write_cases(rng, count):
    """The worked cases, each limit from both sides, each fault and two at once, then random lists: mean to hit 15, 16 and 27."""
    yield 0, "nothing", same([], 0)
    yield 0, "nothing into a buffer", same([], 3)
    yield 16, "16 before a short buffer", same([9], 0)
    yield 0, "operands that a quarter does not have", same([6], 3)
    yield 16, "nothing is written before all is judged", same([7, 8], 2)
    yield 16, "32,768 unknown commands", same([0] * 32_768, 32_768)
    yield 15, "32,769 unknown commands", same([255] * 32_769, 32_769)
    yield 15, "15 whatever the buffer", same(FULL + [6], 0)
    yield from limits_of(
        [
            ("32,768 bytes", (0, same(FULL, 32_768)), (15, same(FULL + [6], 32_769))),
            ("the buffer", (0, same(FULL, 32_768)), (27, same(FULL, 32_767))),
            ("command 1", (0, same([1], 17)), (16, same([0], 17))),
            ("command 7", (0, same([7], 1)), (16, same([8], 1))),
        ]
    )
    for kind in range(1, 8):
        for value in (0, 1, 255):
            yield 0, f"command {kind}", same([kind], 20, value)
        yield 0, f"command {kind} with any operands", call(rng, [kind] * 3, 60)
    for what, spoil in UNEQUAL.items():
        yield 27, what, spoilt(rng, spoil)
        yield 27, f"{what}; also 16: command 8", spoilt(rng, unknown(8), spoil)
        yield 27, f"{what}; also 27: a short buffer", spoilt(rng, short_buffer, spoil)
    yield 27, "no sizes; also 15: 32,769 bytes", changed(same([6] * 32_769, 40_000), sizes=[])
    yield from faults_of(rng, some_list, LATE)
    for _ in range(count):
        data = some_list(rng)
        if rng.random() < 0.2:
            data["kinds"][rng.randrange(len(data["kinds"]))] = rng.randrange(256)
        if rng.random() < 0.2:
            short_buffer(rng, data)
        yield None, "random", data


def spoilt(rng, *spoils):
    data = some_list(rng)
    for spoil in spoils:
        spoil(rng, data)
    return data


def lent(rng, stream, room):
    """A stream and six lists, each with so many places; what they hold shows if it is touched."""
    return {"stream": stream, **{name: [rng.randrange(top + 1) for _ in range(room)] for name, top in TOPS.items()}}


def short_list(name):
    def spoil(rng, data):
        data[name] = data[name][:-1]

    return spoil


COMMANDS_OF_THE_LISTING = 18


@cases
def read_all_cases(rng, count):
    """Whole streams: both sides of 32,768 bytes, each list one place short, the reader's refusals before 6: mean to hit 6, 15, 16, 17."""
    yield 0, "nothing", lent(rng, b"", 0)
    yield 0, "the listing", lent(rng, LISTING, COMMANDS_OF_THE_LISTING)
    yield 0, "places beyond stay", lent(rng, LISTING, 25)
    yield from limits_of(
        [
            ("32,768 bytes", (0, lent(rng, QUARTER * 32_768, 32_768)), (15, lent(rng, QUARTER * 32_769, 32_769))),
            ("command 7", (0, lent(rng, b"\x07", 1)), (16, lent(rng, b"\x08", 1))),
            ("a whole command", (0, lent(rng, CHAIN_A, 20)), (17, lent(rng, CHAIN_A[:-1], 20))),
            ("places", (0, lent(rng, LISTING, COMMANDS_OF_THE_LISTING)), (6, lent(rng, LISTING, COMMANDS_OF_THE_LISTING - 1))),
        ]
    )
    for name in TOPS:
        data = lent(rng, LISTING, COMMANDS_OF_THE_LISTING)
        short_list(name)(rng, data)
        yield 6, f"{name} one place short", data
    yield 15, "15 before 6", lent(rng, b"\x08" * 32_769, 0)
    yield 16, "16 before 6", lent(rng, LISTING + b"\x00", 2)
    yield 17, "17 before 6", lent(rng, LISTING + open_at(7)[:-1], 2)
    yield 0, "a full stream", lent(rng, at_full_length(32_768), 9_000)
    yield 0, "1,927 units and 9 quarters", lent(rng, unit(U32, U64, U32) * 1_927 + QUARTER * 9, 1_936)
    yield 0, "shares", lent(rng, share(255, 65_535) * 3, 3)
    for _ in range(count):
        stream = a_good_stream(rng)[: rng.choice([40, 400, 4_000])]
        if rng.random() < 0.3:
            place = rng.randrange(len(stream))
            stream = stream[:place] + junk_bytes(rng, 1) + stream[place + 1 :]
        yield None, "random", lent(rng, stream, rng.choice([3, 60, 900]))
