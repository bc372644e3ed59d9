"""The built program chainrun, and the library's run of a stream, against the independent computation, byte for byte."""

import subprocess
from collections import Counter
from pathlib import Path

import generate
import library
from independent import stream

TOP = Path(__file__).resolve().parent.parent
CHAINRUN = TOP / "target" / "bin" / "chainrun"

# 6, 7, 8, 9, 10 and 14 cannot occur in a stream (docs/DECISIONS.md, "What cannot be refused in a stream").
REFUSALS = {1, 2, 3, 4, 5, 10, 11, 12, 13, 15, 16, 17, 18, 19, 20, 21, 22, 23, 24}


FILL = b"\xa5"  # in no text


def printed(octets):
    return subprocess.run([str(CHAINRUN)], input=octets, capture_output=True, check=True).stdout


def built(t):
    """Proves and builds the program if the gate has not done so yet."""
    run = subprocess.run([str(TOP / "run.sh")], capture_output=True, text=True)
    t.check(run.returncode == 0 and CHAINRUN.exists(), "chainrun is proved and built", repeat=run.stderr[-2000:])
    return run.returncode == 0


def compare(t, octets, case):
    expected = stream.run(octets)
    t.check(printed(octets) == expected, "chainrun prints what the independent computation prints", repeat=case)
    compare_run(t, octets, expected, case)
    return expected


def compare_run(t, octets, expected, case):
    """The library's text: in a buffer that just fits, in a longer one, and not at all in one that is a byte short."""
    length = len(expected)
    t.check(library.run_length(octets) == length, "the length of the library's run", repeat=case)
    for beyond in (0, 3):
        after = library.run(octets, FILL * (length + beyond))
        t.check(after == (0, length, expected + FILL * beyond), f"the library's run, {beyond} places beyond", repeat=case)
    if expected:
        after = library.run(octets, FILL * (length - 1))
        t.check(after == (6, 0, FILL * (length - 1)), "the library's run, a byte short", repeat=case)


def last_refusal(output):
    """The number of the last line if it is a refusal, else 0."""
    last = output.splitlines()[-1:] or [b""]
    return int(last[0].split()[1]) if last[0].startswith(b"R ") else 0


def test_streams(t):
    """Valid work, exact limits, damage and truncation; each refusal number is seen as the last line."""
    if not built(t):
        return
    met = Counter()
    for case in generate.stream_cases(t.seed, t.count(1_500, 30_000)):
        met[last_refusal(compare(t, case.data["stream"], case))] += 1
    for number in REFUSALS | {0}:
        t.check(met[number] > 0, f"refusal {number} (0: none) is the last line of some stream", repeat=dict(met))


def test_many_draws(t):
    if not built(t):
        return
    for case in generate.many_draw_cases(t.seed, t.count(2, 20)):
        compare(t, case.data["stream"], case.what)


def test_listing_damaged(t):
    """The listing cut at every length, and with every byte changed in two ways."""
    if not built(t):
        return
    listing = generate.LISTING
    for length in range(len(listing) + 1):
        compare(t, listing[:length], ("cut", length))
    for place in range(len(listing)):
        for change in (1, 128):
            octets = listing[:place] + bytes([listing[place] ^ change]) + listing[place + 1 :]
            compare(t, octets, ("changed", place, change))


def test_slow_pipe(t):
    """However the system hands the stream over: byte by byte through a pipe."""
    if not built(t):
        return
    with subprocess.Popen([str(CHAINRUN)], stdin=subprocess.PIPE, stdout=subprocess.PIPE, bufsize=0) as process:
        for octet in generate.LISTING:
            process.stdin.write(bytes([octet]))
        process.stdin.close()
        t.check(process.stdout.read() == stream.run(generate.LISTING), "a slow pipe changes nothing")
