"""Cases of the reader and of whole job streams; the bytes are made here, not by the computation."""

from . import U32, cases, limits_of
from .chains import moves

# Commands


def word(number, width):
    """Big-endian."""
    return number.to_bytes(width, "big")


def unit(number, turnover, its_random):
    """Command 1."""
    return b"\x01" + word(number, 4) + word(turnover, 8) + word(its_random, 4)


def draw(size, start):
    """Command 2."""
    return b"\x02" + word(size, 1) + word(start, 4)


def share(place, its_share):
    """Command 3."""
    return b"\x03" + word(place, 1) + word(its_share, 2)


def relative(place, its_relative):
    """Command 4."""
    return b"\x04" + word(place, 1) + word(its_relative, 4)


def relatives(*values):
    """Command 4 for places 0, 1 and so on; none for a 0, which is there already."""
    return b"".join(relative(place, value) for place, value in enumerate(values) if value)


def open_at(start):
    """Command 5."""
    return b"\x05" + word(start, 8)


QUARTER = b"\x06"
CLOSE = b"\x07"

FRAME_A = (
    unit(11, 70_000_000, 300_000)
    + unit(12, 10_000_000, 500_000)
    + unit(13, 8_000_000, 200_000)
    + unit(14, 7_000_000, 900_000)
    + unit(15, 5_000_000, 100_000)
)
SAME = relatives(100_000, 100_000, 100_000)
PANEL_A = FRAME_A + draw(3, 0)
CHAIN_A = PANEL_A + SAME + open_at(10**9)
LISTING = (
    CHAIN_A
    + relatives(105_000, 98_000, 120_000)
    + CLOSE
    + relatives(100_000, 100_000, 101_000)
    + QUARTER
)


# Whole streams


def opened(start):
    """Frame A's panel opened at a start index, all relatives 1."""
    return PANEL_A + SAME + open_at(start)


def closes(count, turnover=10**9):
    """One unit (its W is its turnover), then so many closes at a relative of 1."""
    one = unit(1, turnover, 0) + draw(1, 0) + relative(0, 100_000) + open_at(10**9)
    return one + (relative(0, 100_000) + CLOSE) * count


def units_in_a_row(count):
    """So many good units of about a million euros."""
    return b"".join(unit(i, 1_000_000 + i * 7_919 % 100_000, i * 977 % 1_000_000) for i in range(count))


def full(its_relative, size=10):
    """A panel out of 20 units of 5 x 10^10 euros: each W is 10^12, and ten add to 10^13. Opened with this a."""
    frame = b"".join(unit(i, 5 * 10**10, i) for i in range(20))
    return frame + draw(size, 0) + relatives(*[its_relative] * size) + open_at(10**9)


def twelve_alike(size):
    """A panel out of twelve units of 83,333,333,333 euros: eleven W add to just under 11 x 10^12."""
    frame = b"".join(unit(i + 1, 83_333_333_333, 1_000 * i) for i in range(12))
    return frame + draw(size, 0) + relatives(*[100_000] * size) + open_at(10**9)


def at_full_length(length):
    """A stream of this length (over 200 and even) that is accepted to its end."""
    stream = CHAIN_A
    while (length - len(stream)) % 4 != 0:
        stream += SAME + QUARTER if (length - len(stream)) % 2 else relative(0, 100_000)
    return stream + share(0, 5_000) * ((length - len(stream)) // 4)


def form_limits():
    """Both sides of each limit of the stream's own form: 15 to 18, 20 and 24."""
    last = relative(0, 100_000)
    return [
        ("32,768 bytes", (0, at_full_length(32_768)), (15, at_full_length(32_768) + QUARTER)),
        ("32,768, unknown", (16, at_full_length(32_766) + b"\x08" * 2), (15, b"\x08" * 32_769)),
        ("1,024 units", (0, units_in_a_row(1_024) + draw(100, 5)), (20, units_in_a_row(1_025))),
        ("forty closes", (0, closes(40)), (24, closes(41))),
        ("a quarter after 39", (0, closes(39) + last + QUARTER), (24, closes(40) + last + QUARTER)),
        ("command 7", (0, closes(1)), (16, closes(1) + b"\x08")),
        ("command 1", (0, FRAME_A), (16, FRAME_A + b"\x00")),
        ("whole command", (0, PANEL_A), (17, PANEL_A[:-1])),
        ("share's place", (0, PANEL_A + share(2, 10_001)), (18, PANEL_A + share(3, 10_001))),
        ("relative's place", (0, PANEL_A + relative(2, U32)), (18, PANEL_A + relative(3, 100_000))),
    ]


def work_limits():
    """Both sides of limits that the operations judge."""

    def called(*values):
        return CHAIN_A + relatives(*values) + QUARTER

    over_share = PANEL_A + SAME + share(0, 10_001) + open_at(10**9)
    top = 9_900_990_100  # 1.01 times it is 10^10 + 1
    return [
        ("a unit", (0, unit(1, 1, 0) + draw(1, 0)), (1, draw(1, 0))),
        ("numbers rise", (0, unit(1, 1, 0) + unit(2, 1, 0) + draw(1, 0)), (2, unit(1, 1, 0) * 2 + draw(1, 0))),
        ("a panel", (0, opened(10**9)), (19, FRAME_A + open_at(10**9))),
        ("a chain", (0, opened(10**9) + SAME + CLOSE), (19, PANEL_A + SAME + CLOSE)),
        ("F of 10^10", (0, opened(10**10) + SAME + CLOSE), (23, opened(top) + relatives(*[101_000] * 3) + CLOSE)),
        ("share 10,000", (0, CHAIN_A), (11, over_share)),
        ("relative 25,000", (0, called(25_000, 25_000, 25_000)), (13, called(24_999, 25_000, 25_000))),
        ("relative 400,000", (0, called(90_000, 90_000, 400_000)), (13, called(90_000, 90_000, 400_001))),
        ("start index 10^8", (0, opened(10**8)), (12, opened(10**8 - 1))),
        ("start index 10^10", (0, opened(10**10)), (12, opened(10**10 + 1))),
        ("sum of v 10^13", (0, full(100_000)), (22, full(100_001))),
        ("sum of W 10^13", (0, full(100_000)), (10, full(100_000, 11))),
        ("weight 1,000,000", (0, closes(1, 10**6)), (21, closes(1, 10**6 - 1))),
        ("total 10^12", (0, unit(1, 10**12, 0) + draw(1, 0)), (3, unit(1, 10**12 + 1, 0) + draw(1, 0))),
        ("panel size 5", (0, FRAME_A + draw(5, 0)), (5, FRAME_A + draw(6, 0))),
        ("start 999,999", (0, FRAME_A + draw(1, 999_999)), (4, FRAME_A + draw(1, 1_000_000))),
    ]


def refused_by_form():
    """(number, what, stream) for 15 to 20, with a later number that would apply as well."""
    yield 16, "command 255", PANEL_A + b"\xff"
    yield 16, "unknown and nothing after it", b"\x08"
    yield 17, "an open cut short, no panel either", open_at(0)[:-1]
    yield 17, "a share cut short, place wrong too", PANEL_A + share(9, 1)[:-1]
    yield 18, "a share without a panel", FRAME_A + share(0, 10_000)
    yield 18, "a relative without a panel", relative(0, 100_000)
    yield 19, "open without a panel", open_at(10**9)
    yield 19, "open without a panel, start index wrong too", FRAME_A + open_at(0)
    yield 19, "quarter without a chain, relatives wrong too", PANEL_A + relatives(1, 1, 1) + QUARTER
    yield 19, "close without a chain", PANEL_A + CLOSE
    yield 19, "a draw drops the chain", CHAIN_A + draw(3, 0) + SAME + QUARTER
    yield 20, "one unit too many, all wrong in it", units_in_a_row(1_024) + unit(0, 0, U32)


def refused_by_work():
    """(number, what, stream) for the operations' own refusals."""
    fourfold = relatives(400_000, 400_000, 400_000)
    yield 1, "a draw without units", draw(1, 0)
    yield 1, "a draw without units, size and start wrong too", draw(0, U32)
    yield 2, "a unit number again", FRAME_A + unit(15, 5, 5) + draw(3, 0)
    yield 3, "a turnover of 0", FRAME_A + unit(16, 0, 5) + draw(3, 0)
    yield 4, "a random number too high", FRAME_A + unit(16, 5, 1_000_000) + draw(3, 0)
    yield 5, "size 0", FRAME_A + draw(0, 0)
    yield 5, "size 101 of 120", units_in_a_row(120) + draw(101, 0)
    yield 10, "eleven heavy units", twelve_alike(11)
    yield 11, "all shares 0", PANEL_A + share(0, 0) + share(1, 0) + share(2, 0) + open_at(10**9)
    yield 12, "start index 0, relatives missing too", PANEL_A + open_at(0)
    yield 13, "relatives missing at the open", PANEL_A + open_at(10**9)
    yield 13, "relatives are 0 after an open", CHAIN_A + QUARTER
    yield 13, "relatives are 0 after a quarter", CHAIN_A + SAME + QUARTER + QUARTER
    yield 13, "relatives are 0 after a close", CHAIN_A + SAME + CLOSE + CLOSE
    yield 13, "relatives are 0 after a draw", PANEL_A + SAME + draw(3, 0) + open_at(10**9)
    yield 13, "a stream in ten-thousandths", PANEL_A + relatives(10_000, 10_000, 10_000) + open_at(10**9)
    yield 13, "a call in ten-thousandths", CHAIN_A + relatives(10_500, 9_800, 12_000) + CLOSE
    yield 13, "a relative of an absent unit", PANEL_A + share(1, 0) + SAME + open_at(10**9)
    yield 21, "light at the open", closes(0, 999_999)
    yield 21, "light after a close", closes(1, 10**6) + relative(0, 99_999) + CLOSE
    yield 21, "light at the forty-first close", closes(40, 10**6) + relative(0, 99_999) + CLOSE
    yield 22, "heavy after a close", full(100_000) + relatives(*[100_001] * 10) + CLOSE
    yield 23, "F over", CHAIN_A + fourfold + CLOSE + fourfold + QUARTER
    yield 23, "F below", opened(10**8) + relatives(99_999, 99_999, 99_999) + QUARTER


def kept_streams():
    """Streams accepted to the end, for what a command leaves behind."""
    two = relatives(0, 100_000, 120_000)
    again_at = relative(0, 100_000) + open_at(10**8) + relative(0, 100_000) + CLOSE
    yield "nothing", b""
    yield "the listing", LISTING
    yield "ten heavy units", twelve_alike(10)
    yield "a unit after a draw waits", PANEL_A + unit(16, 10**9, 0) + SAME + open_at(10**9) + SAME + QUARTER
    yield "the frame stays after a draw", PANEL_A + draw(5, 0) + draw(1, 0)
    yield "a share after an open waits", CHAIN_A + share(0, 0) + SAME + QUARTER + two + open_at(10**9) + two + CLOSE
    yield "a draw sets shares to 10,000", PANEL_A + share(0, 0) + draw(3, 0) + SAME + open_at(10**9)
    yield "a second open replaces the chain", closes(40) + again_at
    yield "a bad share that no open uses", PANEL_A + share(0, 65_535)
    yield "a bad relative mended in time", CHAIN_A + relative(0, U32) + SAME + CLOSE
    yield "a quarter where a close would be 21", closes(1, 10**6) + relative(0, 99_999) + QUARTER
    yield "units near 2^32", unit(U32 - 1, 10**9, 999_999) + unit(U32, 10**9, 0) + draw(1, 999_999)


def some_work(rng, job):
    """One opening with its calls on a panel of this size; job grows by their bytes."""
    shares = [rng.choice([10_000, 10_000, 5_000, 0]) for _ in range(job["size"])]
    shares[rng.randrange(job["size"])] = 10_000
    job["stream"] += b"".join(share(place, g) for place, g in enumerate(shares))
    job["stream"] += relatives(*moves(rng, shares, 25_000, 400_000)) + open_at(rng.randrange(5 * 10**8, 10**9))
    for _ in range(rng.randrange(6)):
        job["stream"] += relatives(*moves(rng, shares, 90_000, 110_000)) + rng.choice([QUARTER, CLOSE])


def a_good_stream(rng):
    """Units, draws, openings and calls, accepted to the end."""
    job = {"stream": b"", "size": 0}
    number = 0
    for _ in range(rng.randrange(1, 4)):
        for _ in range(rng.randrange(3, 20)):
            number += rng.randrange(1, 1_000)
            job["stream"] += unit(number, rng.randrange(10**8, 10**10), rng.randrange(10**6))
        job["size"] = rng.randrange(1, 4)
        job["stream"] += draw(job["size"], rng.randrange(10**6))
        for _ in range(rng.randrange(3)):
            some_work(rng, job)
    return job["stream"]


def damaged(rng, stream):
    """The stream with each byte in turn made another, and cut at each length."""
    for place, octet in enumerate(stream):
        for other in {(octet + 1) % 256, (octet - 1) % 256, octet ^ 128, rng.randrange(256)} - {octet}:
            yield f"byte {place} made {other}", stream[:place] + bytes([other]) + stream[place + 1 :]
        yield f"cut at {place}", stream[:place]


@cases
def stream_cases(rng, count):
    """Streams: mean to hit 1 to 5, 10 to 13 and 15 to 24, each as the last line.

    6 to 9 and 14 cannot come from a stream: the job's own lists fit. The
    weights of a draw add to at most 10^14, which is over 10's limit.
    """
    for intends, what, stream in limits_of(form_limits() + work_limits()):
        yield intends, what, {"stream": stream}
    for refusals in (refused_by_form, refused_by_work):
        for number, what, stream in refusals():
            yield number, what, {"stream": stream}
    for what, stream in kept_streams():
        yield 0, what, {"stream": stream}
    for what, stream in damaged(rng, LISTING):
        yield None, what, {"stream": stream}
    for _ in range(count):
        stream = a_good_stream(rng)
        yield 0, "random work", {"stream": stream}
        for what, spoilt_stream in rng.sample(list(damaged(rng, stream)), 5):
            yield None, what, {"stream": spoilt_stream}


@cases
def many_draw_cases(rng, count):
    """Long outputs: 200 draws of a hundred units, then as many as a stream holds. No refusals."""
    frame = units_in_a_row(100)
    for number in range(count):
        draws = (32_768 - len(frame)) // 6 if number else 200
        yield 0, f"{draws} draws", {"stream": frame + draw(100, rng.randrange(10**6)) * draws}


@cases
def reader_cases(rng, count):
    """Parts for the reader of one command: mean to hit 15, 16 and 17; empty is the end."""
    commands = [unit(1, 2, 3), draw(4, 5), share(6, 7), relative(8, 9), open_at(10), QUARTER, CLOSE]
    yield 0, "the end", {"part": b""}
    yield 0, "32,768 bytes: within", {"part": QUARTER * 32_768}
    yield 15, "32,768 bytes: beyond", {"part": QUARTER * 32_769}
    yield 15, "15 before 16", {"part": b"\x00" * 32_769}
    yield from limits_of(
        [
            ("command 1", (0, {"part": commands[0]}), (16, {"part": b"\x00"})),
            ("command 7", (0, {"part": CLOSE}), (16, {"part": b"\x08"})),
            ("a whole open", (0, {"part": open_at(7)}), (17, {"part": open_at(7)[:-1]})),
        ]
    )
    for octet in (0, 8, 9, 128, 255):
        yield 16, f"command {octet}", {"part": bytes([octet]) + junk_bytes(rng, 20)}
        yield 16, f"command {octet} alone", {"part": bytes([octet])}
    for command in commands:
        yield 0, "a whole command", {"part": command}
        yield 0, "a command and more", {"part": command + junk_bytes(rng, 3)}
        for length in range(1, len(command)):
            yield 17, f"command {command[0]} cut at {length}", {"part": command[:length]}
    for _ in range(count):
        yield None, "random", {"part": bytes([rng.randrange(10)]) + junk_bytes(rng, rng.randrange(25))}


@cases
def word_cases(rng, count):
    """Parts of every length from 0 to 9 and over 32,768 bytes, the worked parts, then random ones; 17 below four bytes."""
    for part in (b"\x01\x02\x03\x04", b"\xff\xff\xff\xff\x00", b"\x00\x00\x01\x00" * 10_000, b"\x00" * 4, b"\x80\x00\x00\x00"):
        yield 0, "a worked part", {"part": part}
    yield from limits_of([("four bytes", (0, {"part": b"\x01\x02\x03\x04"}), (17, {"part": b"\x01\x02\x03"}))])
    for length in (*range(10), 32_768, 32_769, 100_000):
        yield 17 if length < 4 else 0, f"{length} bytes", {"part": junk_bytes(rng, length)}
    for _ in range(count):
        yield None, "random", {"part": junk_bytes(rng, rng.randrange(10))}


def junk_bytes(rng, count):
    """Any bytes."""
    return bytes(rng.randrange(256) for _ in range(count))
