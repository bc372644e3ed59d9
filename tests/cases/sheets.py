"""Cases of document 02, [12]: a name, two figures and a lent buffer."""

from . import U64, cases, faults_of, junk, limits_of, put

LINE = 49
LOWEST, HIGHEST = 10**8, 10**10
SOME = (LOWEST, LOWEST + 7, 10**9 - 1, 10**9, 10**9 + 1, 1_062_000_000, 1_063_799_994, HIGHEST - 1, HIGHEST)
# new and old of the worked lines, and the widest changes either way
WORKED = ((999_999_999, 10**9), (1_063_799_994, 1_064_332_000), (100_000_007, LOWEST), (HIGHEST, LOWEST), (LOWEST, HIGHEST), (10**9, 10**9))


def call(rng, name, new, old, beyond=(0, 1, 5)):
    return {"name": name, "new": new, "old": old, "out": bytes(junk(rng, LINE + rng.choice(beyond), 255))}


def some_name(rng):
    return bytes(rng.randint(32, 126) for _ in range(rng.choice([1, 2, 12, 19, 20])))


def some_line(rng):
    """Two figures anywhere, close together, or at exact hundredths of a percent and one beside."""
    old = rng.choice([*SOME, rng.randint(LOWEST, HIGHEST), 10_000 * rng.randint(LOWEST // 10_000, HIGHEST // 10_000)])
    near = old + rng.choice([-1, 0, 1]) + old // 10_000 * rng.randint(-12, 12)
    new = rng.choice([*SOME, rng.randint(LOWEST, HIGHEST), near, near])
    return call(rng, some_name(rng), min(max(new, LOWEST), HIGHEST), old)


FAULTS = {
    32: {
        "no name": lambda rng, data: data.update(name=b""),
        "a name of 21": lambda rng, data: data.update(name=b"x" * 21),
        "a long name": lambda rng, data: data.update(name=b"x" * 300),
        "a control byte": lambda rng, data: data.update(name=b"Road\x1ffreight"),
        "a line feed": lambda rng, data: data.update(name=b"Road\n"),
        "byte 127": lambda rng, data: data.update(name=b"\x7f"),
        "a byte over 127": lambda rng, data: data.update(name="Straße".encode()),
        "new too low": put("new", LOWEST - 1),
        "new 0": put("new", 0),
        "new too high": put("new", HIGHEST + 1),
        "the largest new": put("new", U64),
        "old too low": put("old", LOWEST - 1),
        "old 0": put("old", 0),
        "old too high": put("old", HIGHEST + 1),
        "the largest old": put("old", U64),
        "no buffer": lambda rng, data: data.update(out=b""),
        "48 bytes": lambda rng, data: data.update(out=data["out"][: LINE - 1]),
    }
}


@cases
def sheet_cases(rng, count):
    """The worked lines, each limit from both sides, each fault, then random lines; 32 is the only refusal."""
    for new, old in WORKED:
        yield 0, "a worked line", call(rng, b"Road freight", new, old)
    for name in (b" ", b" " * 20, bytes(range(32, 52)), bytes(range(107, 127))):
        yield 0, "a name", call(rng, name, 10**9, 10**9)
    good = call(rng, b"Sea", 10**9, 10**9, (0,))

    def pair(what, argument, within, beyond):
        return what, (0, {**good, argument: within}), (32, {**good, argument: beyond})

    yield from limits_of(
        [
            pair("20 bytes", "name", b"x" * 20, b"x" * 21),
            pair("1 byte", "name", b"x", b""),
            pair("byte 32", "name", b"\x20", b"\x1f"),
            pair("byte 126", "name", b"\x7e", b"\x7f"),
            *(pair(f"{figure} 10^8", figure, LOWEST, LOWEST - 1) for figure in ("new", "old")),
            *(pair(f"{figure} 10^10", figure, HIGHEST, HIGHEST + 1) for figure in ("new", "old")),
            pair("49 bytes", "out", bytes(LINE), bytes(LINE - 1)),
        ]
    )
    yield from faults_of(rng, some_line, FAULTS)
    for _ in range(count):
        yield None, "random", some_line(rng)
