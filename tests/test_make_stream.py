"""examples/make_stream.py: its bytes, and what it says about a bad line."""

import subprocess
import sys
from pathlib import Path

import generate
from independent.stream import run
from test_reference_cases import PRINTED

EXAMPLES = Path(__file__).resolve().parent.parent / "examples"


def made(text, *arguments):
    """Status, standard output and standard error of the script, text being its standard input."""
    command = [sys.executable, "-B", str(EXAMPLES / "make_stream.py"), *arguments]
    done = subprocess.run(command, input=text, capture_output=True, timeout=60)
    return done.returncode, done.stdout, done.stderr.decode()


def test_reference_stream(t):
    status, stream, _ = made(b"", str(EXAMPLES / "reference.txt"))
    t.check(status == 0, "accepted", status)
    t.check(run(stream) == PRINTED, "the listing, byte for byte", stream)
    t.check(stream == generate.LISTING, "the stream that the tests make", stream)


def test_each_command(t):
    """The widest operands of each command, with comments, spaces and line ends of both kinds."""
    text = (
        b"# \xff any bytes in a comment\n"
        b"unit 4294967295 18446744073709551615 4294967295\r\n"
        b"\n  draw\t255 4294967295 # so wide\n"
        b"share 255 65535\nrelative 255 4294967295\nopen 18446744073709551615\nquarter\nclose"
    )
    expected = b"\x01" + b"\xff" * 16 + b"\x02" + b"\xff" * 5 + b"\x03" + b"\xff" * 3
    expected += b"\x04" + b"\xff" * 5 + b"\x05" + b"\xff" * 8 + b"\x06\x07"
    answer = made(text)
    t.check(answer == (0, expected, ""), "all commands", answer)
    answer = made(b"open 000000000000000000000000000258\n")
    t.check(answer[:2] == (0, b"\x05\x00\x00\x00\x00\x00\x00\x01\x02"), "leading zeros", answer)
    status, stream, said = made(b"")
    t.check((status, stream) == (0, b"") and "no command" in said, "nothing gives nothing, with a word", said)


BAD_LINES = [
    (b"close\nsell 3\n", "line 2: unknown command 'sell'"),
    (b"\n# one\nunit 1 2\n", "line 3: 2 numbers given; the line has the form: unit NUMBER TURNOVER RANDOM_NUMBER"),
    (b"close 1\n", "line 1: 1 number given; the line has the form: close"),
    (b"draw 256 0\n", "line 1: size 256 does not fit in 1 byte\n"),
    (b"share 0 65536\n", "line 1: share 65536 does not fit in 2 bytes"),
    (b"relative 0 4294967296\n", "line 1: relative 4294967296 does not fit in 4 bytes"),
    (b"open 18446744073709551616\n", "line 1: start index 18446744073709551616 does not fit in 8 bytes"),
    (b"open " + b"9" * 5_000, "... (5000 characters) does not fit in 8 bytes"),
    (b"open -1\n", "line 1: start index is '-1', not a number in decimal digits"),
    (b"open 1_000\n", "line 1: start index is '1_000', not a number"),
    (b"open 1e9\n", "line 1: start index is '1e9', not a number"),
]


def test_bad_lines(t):
    for text, reason in BAD_LINES:
        status, stream, said = made(text)
        t.check((status, stream) == (2, b""), "status 2 and no bytes", (text, status, stream))
        t.check(reason in said, "the line and the reason", (text, said))
    status, stream, said = made(b"", str(EXAMPLES / "no such file"))
    t.check((status, stream) == (2, b"") and "no such file" in said, "no such file", said)


def test_writing_fails(t):
    """A full device is status 3; options and further files are wrong use."""
    command = [sys.executable, "-B", str(EXAMPLES / "make_stream.py")]
    with open("/dev/full", "wb") as full:
        done = subprocess.run(command, input=b"close\n", stdout=full, stderr=subprocess.PIPE, timeout=60)
    t.check(done.returncode == 3 and b"No space left on device" in done.stderr, "a full device", done)
    for words in (["--nonsense"], ["a", "b"], [""]):
        status, stream, said = made(b"close\n", *words)
        t.check((status, stream) == (2, b"") and said.count("\n") == 1, "wrong use", (words, status, said))
    status, text, said = made(b"", "--help")
    t.check((status, said) == (0, "") and b"never against the quarter before" in text, "help", (status, said))
