"""Cases of document 02, [14]: a text and three lent lists."""

from . import U32, U64, cases, junk

TOP = (U32, U64, U32)
ENDS = (b"\n", b"\r\n")

# text, places of the lists, refusal: the worked cases and each sentence from both sides
WORKED = [
    (b"", 0, 0),
    (b"1,2,3\n", 1, 0),
    (b"1,2,3", 1, 0),
    (b"1,2,3\r\n", 1, 0),
    (b"1,2,3\r\n4,5,6", 2, 0),
    (b"1,2,3\n4,5,6\nx", 1, 34),
    (b"1,2,3\n4,5,6\n", 1, 35),
    (b"1,2,3\n4,5,6", 1, 35),
    (b"1,2,3", 0, 35),
    (b"x", 0, 34),
    (b"18446744073709551617,2,3", 1, 34),
    (b"1,18446744073709551615,3", 1, 0),
    (b"1,18446744073709551616,3", 1, 34),
    (b"1,99999999999999999999,3", 1, 34),
    (b"4294967295,0,4294967295", 1, 0),
    (b"4294967296,2,3", 1, 34),
    (b"1,2,4294967296", 1, 34),
    (b"1,2,18446744073709551617", 1, 34),
    (b"00000000000000000001,2,3", 1, 0),
    (b"000000000000000000001,2,3", 1, 34),
    (b"1,000000000000000000001,3", 1, 34),
    (b"1,2,00000000000000000003", 1, 0),
    (b"1,2,000000000000000000003\n", 1, 34),
    (b"1,2,3\r", 1, 34),
    (b"1,2,3\r\r\n", 1, 34),
    (b"1,2,3\n\n", 2, 34),
    (b"1,2,3\n ", 2, 34),
    (b"\n", 1, 34),
    (b"\r\n", 1, 34),
    (b"\r", 1, 34),
    (b"\n1,2,3\n", 2, 34),
    (b"1,2\n", 1, 34),
    (b"1,2,\n", 1, 34),
    (b",2,3\n", 1, 34),
    (b"1,,3\n", 1, 34),
    (b"1,2,3,\n", 1, 34),
    (b"1,2,3,4\n", 1, 34),
    (b"+1,2,3\n", 1, 34),
    (b"1,-2,3\n", 1, 34),
    (b" 1,2,3\n", 1, 34),
    (b"1, 2,3\n", 1, 34),
    (b"1,2,3 \n", 1, 34),
    (b"1;2;3\n", 1, 34),
    (b"1,2,3:\n", 1, 34),
    (b"1,2,/\n", 1, 34),
    (b"1\r,2,3\n", 1, 34),
    (b"1,2,3\r4,5,6\n", 2, 34),
    (b"1,2,3\x00\n", 1, 34),
    (b"\xef\xbb\xbf1,2,3\n", 1, 34),
    (b"1,2,\xb2\n", 1, 34),
]


def call(rng, text, places, beyond=(0,)):
    rooms = [places + rng.choice(beyond) for _ in TOP]
    names = ("numbers", "turnovers", "randoms")
    return {"text": bytes(text), **{name: junk(rng, room, top) for name, room, top in zip(names, rooms, TOP)}}


def some_field(rng, top):
    number = rng.choice((0, 1, 9, 10, top - 1, top, rng.randrange(100), rng.randrange(top + 1)))
    return str(number).encode().rjust(rng.choice((1, 1, 1, 2, 20)), b"0")


def some_line(rng):
    return b",".join(some_field(rng, top) for top in TOP)


def some_text(rng, lines):
    ends = [rng.choice(ENDS) for _ in range(lines)]
    if ends and rng.random() < 0.3:
        ends[-1] = b""
    return b"".join(some_line(rng) + end for end in ends)


def damaged(rng, text):
    """One byte changed, put in or left out, or the text cut: mostly bytes that such texts have."""
    at = rng.randrange(len(text) + 1)
    byte = bytes([rng.choice(b"0123456789,,,\n\n\r\r -+.;x/:\x00\xff" if rng.random() < 0.9 else bytes(range(256)))])
    way = rng.randrange(4)
    if way == 0:
        return text[:at]
    return text[:at] + (byte if way < 3 else b"") + text[at + (way != 1) :]


@cases
def register_cases(rng, count):
    """The worked texts, each into lists that just hold them, one shorter list each, then random and damaged texts."""
    for text, places, refusal in WORKED:
        yield refusal, repr(text), call(rng, text, places)
    for short in ("numbers", "turnovers", "randoms"):
        data = call(rng, b"1,2,3\n4,5,6\n7,8,9\n", 3, (0, 2))
        yield 35, f"short {short}", {**data, short: data[short][:2]}
        yield 34, f"an empty line after the others; also 35: short {short}", {**data, short: data[short][:2], "text": data["text"] + b"\n"}
        yield 0, f"a longer list than {short}", {**call(rng, b"1,2,3\n4,5,6\n7,8,9\n", 4), short: junk(rng, 3, 9)}
    yield 0, "a whole frame", call(rng, some_text(rng, 16_384), 16_384)
    yield 35, "one line more than a whole frame", call(rng, some_text(rng, 16_385), 16_384)
    yield 34, "the last of many lines is bad", call(rng, some_text(rng, 3_000) + b"\n\n", 5)
    for _ in range(count):
        lines = rng.choice((0, 1, 2, 3, rng.randrange(40)))
        text = some_text(rng, lines)
        for _ in range(rng.choice((0, 1, 1, 2))):
            text = damaged(rng, text)
        yield None, "random", call(rng, text, max(0, lines + rng.choice((-1, 0, 0, 1))), (0, 0, 1, 2))
