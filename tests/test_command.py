"""run.sh as a user meets it: its arguments, its statuses, failures of reading and writing, refusals in words, readable lines."""

import os
import subprocess
import sys
import tempfile
import threading
import time
from pathlib import Path

import commands
import generate
from commands import CHAINRUN, TOP, run
from independent import stream
from test_reference_cases import PRINTED

sys.path.append(str(TOP / "tools"))
import explain
import job
from words import REFUSALS

RUN = TOP / "run.sh"
REFERENCE = (TOP / "examples" / "reference.txt").read_bytes()
FRAME = (
    b"unit 11 70000000 300000\nunit 12 10000000 500000\nunit 13 8000000 200000\n"
    b"unit 14 7000000 900000\nunit 15 5000000 100000\n"
)
OPENED = FRAME + b"draw 3 0\nrelative 0 100000\nrelative 1 100000\nrelative 2 100000\nopen 1000000000\n"  # 10 lines
SAME = b"relative 0 100000\nrelative 1 100000\nrelative 2 100000\n"


# Arguments


def test_names(t):
    """The file is found from where the caller stands, through a link, and whatever its name."""
    commands.built()
    with tempfile.TemporaryDirectory() as folder:
        here = Path(folder) / "my jobs"
        here.mkdir()
        (here / "job one.txt").write_bytes(REFERENCE)
        (here / "-odd").write_bytes(REFERENCE)
        (here / "link.sh").symlink_to(RUN)
        for words in ([RUN, "job one.txt"], ["./link.sh", "job one.txt"], [RUN, "--", "-odd"], ["sh", RUN, "job one.txt"]):
            t.check(run(words, cwd=here) == (0, PRINTED, ""), "the listing", (words, run(words, cwd=here)))
        answer = run([RUN, "-"], text=REFERENCE, cwd=here)
        t.check(answer == (0, PRINTED, ""), "standard input", answer)
        answer = run([RUN], cwd=here)
        t.check(answer == (0, PRINTED, ""), "without a name the reference job", answer)
        with open(here / "job one.txt", "rb") as unread:
            status, printed, said = run([RUN], cwd=here, stdin=unread)
        t.check(
            (status, printed) == (0, PRINTED) and "./run.sh - reads standard input" in said,
            "with a word if a job waits unread",
            said,
        )
        status, printed, said = run([RUN], text=REFERENCE, cwd=here)
        t.check((status, printed) == (0, PRINTED) and "./run.sh - reads standard input" in said, "in a pipe too", said)
        answer = run(["./link.sh", "--stream", "-"], text=generate.LISTING, cwd=here)
        t.check(answer == (0, PRINTED, ""), "a stream of bytes", answer)


def test_wrong_use(t):
    for words, reason in (
        ([""], "the name of the file is empty"),
        (["--nonsense"], "unknown option --nonsense"),
        (["-x"], "unknown option -x"),
        (["--hel"], "unknown option --hel"),
        (["a.txt", "b.txt"], "one file at a time: a.txt and b.txt were given"),
        (["-", "-"], "one file at a time"),
        (["--stream"], "--stream wants a file"),
        (["no such file"], "cannot read no such file: No such file or directory"),
        (["run.sh/job.txt"], "cannot read run.sh/job.txt: Not a directory"),
    ):
        status, printed, said = run([RUN, *words])
        t.check(
            (status, printed) == (2, b"") and reason in said and said.count("\n") == 1,
            "status 2 and one line",
            (words, said),
        )
    for words in (["--help"], ["-h"], ["job.txt", "--help"]):
        status, printed, said = run([RUN, *words])
        t.check((status, said) == (0, "") and b"relative unit NUMBER" in printed, "help", (words, status, said))
        t.check(all(word in printed.decode() for word in ("Exit status", *job.COMMANDS)), "all of it", printed)


# Reading and writing


def shell(text):
    return run(["sh", "-c", text, str(RUN), str(CHAINRUN), str(TOP / "crates" / "chainrun" / "stdin")])


def test_writing_fails(t):
    """A full device, a closed descriptor: status 3 and the system's reason; the program says it too."""
    commands.built()
    for where, reason in (("> /dev/full", "No space left on device"), (">&-", "Bad file descriptor")):
        status, _, said = shell(f'"$0" {where}')
        t.check(status == 3 and said == f"run.sh: cannot write standard output: {reason}\n", where, (status, said))
        _, _, said = shell(f'"$1" < "$2" {where}')
        t.check(said == f"chainrun: cannot write standard output: {reason}\n", f"chainrun {where}", said)
    status, _, said = shell('"$0" --help > /dev/full')
    t.check(status == 3 and "No space left" in said, "help to a full device", (status, said))
    status, _, said = shell('"$0" - > /dev/full 2>&- < /dev/null')
    t.check((status, said) == (0, ""), "an empty job writes nothing", (status, said))
    status, _, _ = shell('"$0" > /dev/full 2>&-')
    t.check(status == 3, "with nobody to tell, the status tells", status)


def test_broken_pipe(t):
    commands.built()
    for words, text in (([RUN], None), ([CHAINRUN], generate.LISTING)):
        reader, writer = os.pipe()
        os.close(reader)
        done = subprocess.Popen(words, stdin=subprocess.PIPE, stdout=writer, stderr=subprocess.PIPE, restore_signals=False)
        os.close(writer)
        said = done.communicate(text)[1].decode()
        t.check("cannot write standard output: Broken pipe" in said, "a broken pipe is told", (words, said))
        if words == [RUN]:
            t.check(done.returncode == 3, "status 3", done.returncode)


def test_reading_fails(t):
    """A closed descriptor, a directory: status 3, and nothing on standard output."""
    commands.built()
    for words, reason in (('"$0" - <&-', "Bad file descriptor"), ('"$0" - < /', "Is a directory"), ('"$0" /', "Is a directory")):
        status, printed, said = shell(words)
        t.check((status, printed) == (3, b"") and reason in said and said.count("\n") == 1, words, (status, printed, said))
    for words, reason in (('"$1" <&-', "Bad file descriptor"), ('"$1" < /', "Is a directory")):
        _, printed, said = shell(words)
        t.check(
            printed == b"" and said == f"chainrun: cannot read standard input: {reason}\n",
            f"chainrun: {words}",
            (printed, said),
        )
    status, printed, said = shell('"$1" job.stream < "$2"')
    t.check(printed == b"" and "takes no arguments" in said, "chainrun with a name", (printed, said))


def test_read_that_fails_midway(t):
    """137 bytes, and then a read that fails: no figure is printed as if the job were shorter."""
    commands.built()
    reader, writer = os.pipe()
    os.set_blocking(reader, False)
    os.write(writer, generate.LISTING[:137])
    _, printed, said = run([CHAINRUN], stdin=reader)
    os.close(reader)
    os.close(writer)
    t.check(printed == b"", "nothing is printed", printed)
    t.check(said == "chainrun: cannot read standard input: Resource temporarily unavailable\n", "the reason", said)


def feed(descriptor, data, size, pause):
    for at in range(0, len(data), size):
        os.write(descriptor, data[at : at + size])
        time.sleep(pause)
    os.close(descriptor)


def test_slow_pipes(t):
    """A pipe that hands over a little at a time, and one that does not wait."""
    commands.built()
    for words, data in (([RUN, "-"], REFERENCE), ([RUN, "--stream", "-"], generate.LISTING), ([CHAINRUN], generate.LISTING)):
        for waits in (True, False) if words[0] == RUN else (True,):
            reader, writer = os.pipe()
            os.set_blocking(reader, waits)
            feeder = threading.Thread(target=feed, args=(writer, data, len(data) // 12 + 1, 0.02))
            feeder.start()
            answer = run(words, stdin=reader)
            feeder.join()
            os.close(reader)
            t.check(answer == (0, PRINTED, ""), "a slow pipe changes nothing", (words, waits, answer))
    status, printed, said = run([RUN, "/dev/zero"])
    t.check((status, printed) == (2, b"") and "16,777,216 bytes" in said, "an input without an end", (status, said))


# Refusals


def told(lines):
    """The last line that the program prints for a job, and what is said of it, as run.sh puts it together."""
    read, _ = job.commands_of(lines)
    job.place_units(read, printed_by_chainrun)
    octets = job.stream_of(read)
    printed = printed_by_chainrun(octets).decode()
    return printed.splitlines()[-1], "\n".join(explain.explained(read, printed, len(octets)))


def printed_by_chainrun(octets):
    return run([CHAINRUN], text=octets)[1]


REFUSED = [
    (b"draw 3 0\n", 1, "line 1 (draw): refusal 1: no unit is given before the draw"),
    (
        b"unit 3 9 9\nunit 3 9 9\ndraw 1 0\n",
        2,
        "line 3 (draw): refusal 2: unit 3, given in line 2, is not above unit 3, given in line 1",
    ),
    (b"unit 3 0 9\ndraw 1 0\n", 3, "line 2 (draw): refusal 3: turnover 0 of unit 3, given in line 1"),
    (
        b"unit 3 9 9\nunit 4 1000000000000 9\ndraw 1 0",
        3,
        "refusal 3: the turnovers of 2 units add to 1000000000009, over 1,000,000,000,000",
    ),
    (
        b"unit 3 9 1000000\ndraw 1 0\n",
        4,
        "refusal 4: random number 1000000 of unit 3, given in line 1, is over 999,999",
    ),
    (b"unit 3 9 9\ndraw 1 1000000\n", 4, "refusal 4: start 1000000 is over 999,999"),
    (FRAME + b"draw 0 0\n", 5, "line 6 (draw): refusal 5: size 0"),
    (FRAME + b"draw 101 0\n", 5, "refusal 5: size 101 is over 100"),
    (FRAME + b"draw 6 0\n", 5, "refusal 5: size 6 is over the 5 units given"),
    (
        b"".join(b"unit %d 83333333333 %d\n" % (i + 1, 1_000 * i) for i in range(12))
        + b"draw 11 0\n"
        + b"".join(b"relative %d 100000\n" % place for place in range(11))
        + b"open 1000000000\n",
        10,
        "line 25 (open): refusal 10: the W of 11 units add to 10999999999956, over 10,000,000,000,000",
    ),
    (
        FRAME + b"draw 3 0\nshare unit 13 10001\nopen 1000000000\n",
        11,
        "refusal 11: share 10001 of place 1 (unit 13), given in line 7, is over 10,000",
    ),
    (FRAME + b"draw 1 0\nshare 0 0\nopen 1000000000\n", 11, "line 8 (open): refusal 11: the shares of all units are 0"),
    (
        FRAME + b"draw 3 0\nopen 99999999\n",
        12,
        "refusal 12: start index 99999999 is outside 100,000,000 to 10,000,000,000",
    ),
    (
        FRAME + b"draw 3 0\nopen 1000000000\n",
        13,
        "refusal 13: relative 0 of place 0 (unit 11), not set since the last call, is 0 for a unit that is present (and 2 further places)",
    ),
    (
        OPENED + b"relative 0 100000\nrelative unit 13 2400000\nrelative 2 100000\nquarter\n",
        13,
        "line 14 (quarter): refusal 13: relative 2400000 of place 1 (unit 13), given in line 12, is outside 25,000 to 400,000 (100,000 is no change)",
    ),
    (
        FRAME + b"draw 3 0\nshare unit 15 0\nrelative 0 100000\nrelative 1 100000\nrelative 2 100000\nopen 1000000000\n",
        13,
        "line 11 (open): refusal 13: relative 100000 of place 2 (unit 15), given in line 10, is not 0 though the unit's share is 0",
    ),
    (b"quarter\n" * 32_769, 15, "refusal 15: the stream of the whole job has 32,769 bytes, over 32,768"),
    (
        FRAME + b"draw 3 0\nrelative 3 100000\n",
        18,
        "line 7 (relative): refusal 18: place 3 of a panel of 3; the places are 0 to 2",
    ),
    (b"share 0 1\n", 18, "line 1 (share): refusal 18: place 0 before a draw"),
    (b"open 1000000000\n", 19, "line 1 (open): refusal 19: an open before a draw"),
    (FRAME + b"draw 3 0\nclose\n", 19, "line 7 (close): refusal 19: a close before an open"),
    (
        b"".join(b"unit %d 1 1\n" % i for i in range(1_025)),
        20,
        "line 1025 (unit): refusal 20: unit 1024 is one more than the 1,024 that a job holds",
    ),
    (
        b"unit 1 999999 0\ndraw 1 0\nrelative 0 100000\nopen 1000000000\n",
        21,
        "line 4 (open): refusal 21: u of place 0 (unit 1) is 999999 at this open, below 1,000,000",
    ),
    (
        b"unit 1 1000000 0\ndraw 1 0\nrelative 0 100000\nopen 1000000000\nrelative 0 99999\nclose\n",
        21,
        "line 6 (close): refusal 21: v of place 0 (unit 1) is 999990 at this close, below 1,000,000",
    ),
    (
        b"unit 1 1000000000000 0\ndraw 1 0\nrelative 0 400000\nopen 100000000\nrelative 0 400000\nclose\n",
        22,
        "line 6 (close): refusal 22: the v add to 16000000000000 at this close, over 10,000,000,000,000",
    ),
    (
        b"unit 1 9000000 0\ndraw 1 0\nrelative 0 100000\nopen 9000000000\nrelative 0 111120\nquarter\n",
        23,
        "line 6 (quarter): refusal 23: the figure would be 10000800000, outside 100,000,000 to 10,000,000,000",
    ),
    (
        OPENED + SAME + b"close\n" + (SAME + b"close\n") * 39 + SAME + b"quarter\n",
        24,
        "line 174 (quarter): refusal 24: the chain has had 40 closes of at most 40",
    ),
]


def test_refusals_in_words(t):
    """Each number that a job can meet: the R line as the program prints it, and what is to blame."""
    commands.built()
    for lines, number, words in REFUSED:
        last, said = told(lines)
        t.check(last.startswith(f"R {number} "), "the R line", (lines[-80:], last, said))
        t.check(words in said, "the line, the number and what is to blame", (words, said))
        t.check(said.endswith(f"refusal {number} is: {REFUSALS[number][1]} (docs/REFUSALS.md)"), "the number's words", said)
    met = {number for _, number, _ in REFUSED}
    t.check(met == set(range(1, 25)) - {6, 7, 8, 9, 14, 16, 17}, "all of document 01 but what no line can cause", met)


def test_refused_jobs(t):
    """The command: status 1, standard output as the program has it, the words on standard error."""
    commands.built()
    lines = OPENED + b"relative 0 100000\nrelative unit 13 2400000\nrelative 2 100000\nquarter\n"
    status, printed, said = run([RUN, "-"], text=lines)
    t.check(
        (status, printed) == (1, PRINTED[:43] + b"R 13 136\n"),
        "status 1, and R as the program prints it",
        (status, printed),
    )
    words = "relative 2400000 of place 1 (unit 13), given in line 12, is outside 25,000 to 400,000 (100,000 is no change)"
    wanted = f"run.sh: standard input: line 14 (quarter): refusal 13: {words}\n"
    t.check(
        said.startswith(wanted) and said.count("\n") == 2,
        "the line, the unit, the value; then the number's words",
        said,
    )
    status, printed, said = run([RUN, "--stream", "-"], text=REFERENCE)
    t.check((status, printed) == (1, b"R 16 0\n") and "looks like a job of lines" in said, "lines as a stream", (status, said))
    for octets, number in ((b"\x09", 16), (b"\x04\x00", 17)):
        status, printed, said = run([RUN, "--stream", "-"], text=generate.LISTING + octets)
        t.check(status == 1 and printed == PRINTED + b"R %d 156\n" % number, "a stream's own", (status, printed))
        t.check(f"byte 156: refusal {number}: {REFUSALS[number][1]}" in said, "the byte and the words", said)


def test_blame_on_random_streams(t):
    """Whatever a stream is refused by, something is said, and where a command is refused something is to blame."""
    for case in generate.stream_cases(t.seed, t.count(120, 5_000)):
        octets = case.data["stream"]
        printed = stream.run(octets).decode()
        lines = explain.explained(job.commands_in(octets), printed, len(octets))
        last = printed.splitlines()[-1:] or [""]
        if not last[0].startswith("R "):
            t.check(lines == [], "no refusal, no words", case)
            continue
        number = last[0].split()[1]
        t.check(f"refusal {number}: " in lines[0], "the number", case)
        t.check(number in ("16", "17") or len(lines) == 2, "what is to blame", (lines, case.what))


# Lines


def test_units_by_number(t):
    """A panel unit by its number is the same as by its place, across draws; one that is not there is refused with its line."""
    commands.built()
    by_place = FRAME + b"draw 3 0\nshare 2 5000\nrelative 1 90000\ndraw 3 101000\nrelative 1 90000\nrelative 2 91000\n"
    by_unit = FRAME + b"draw 3 0\nshare unit 15 5000\nrelative unit 13 90000\ndraw 3 101000\nrelative unit 12 90000\nrelative unit 13 91000\n"
    made = [run([sys.executable, "examples/make_stream.py"], text=lines) for lines in (by_place, by_unit)]
    t.check(made[0][:2] == made[1][:2] == (0, job.stream_of(job.commands_of(by_place)[0])), "the same bytes", made)
    for lines, reason in (
        (FRAME + b"relative unit 11 1\ndraw 3 0\n", "line 6: unit 11 is named before a draw: there is no panel yet"),
        (
            FRAME + b"draw 3 0\nrelative unit 12 1\n",
            "line 7: unit 12 is not in the panel drawn in line 6 (11, 13, 15)\n",
        ),
        (
            FRAME + b"draw 3 0\nshare unit 1734 1\n",
            "line 7: unit 1734 is not in the panel drawn in line 6 (11, 13, 15) and no unit line gives it",
        ),
        (
            FRAME + b"draw 3 101000\nrelative unit 15 1\n",
            "line 7: unit 15 is not in the panel drawn in line 6 (11, 12, 13)",
        ),
        (FRAME + b"draw 3 0\nrelative unit 4294967296 1\n", "line 7: unit number 4294967296 does not fit in 4 bytes"),
        (
            FRAME + b"draw 3 0\nrelative unit 11\n",
            "the line has the form: relative PLACE RELATIVE, or relative unit NUMBER RELATIVE",
        ),
        (FRAME + b"draw 3 0\nrelative unit 12 1\nrelative unit 14 1\n", "line 8: unit 14 is not in the panel"),
    ):
        status, printed, said = run([RUN, "-"], text=lines)
        t.check((status, printed) == (2, b"") and reason in said, "refused with its line", (reason, status, printed, said))
    last, said = told(FRAME + b"draw 9 0\nrelative unit 11 100000\n")
    t.check(last == "R 5 85", "a refused draw comes before the units below it", (last, said))
    status, made, said = run([sys.executable, "examples/make_stream.py"], text=FRAME + b"draw 9 0\nrelative unit 11 100000\n")
    t.check((status, made) == (2, b"") and "line 6: this draw is refused" in said, "and no stream is made", (status, said))


ODD = [
    (b"", "warning: the job has no command, so nothing is printed"),
    (b"# only a comment\n", "warning: the job has no command, so nothing is printed"),
    (FRAME, "warning: the job has no draw, so no unit is judged and there is no panel"),
    (
        REFERENCE.replace(b"\n", b"\r"),
        "warning: a carriage return stands without a line feed; it is taken as the end of a line",
    ),
    (
        OPENED.replace(b"open", b"relative unit 13 90000\nopen"),
        "warning: line 10: the relative of place 1 (unit 13) is set to 90000 again before a call uses it; 100000 of line 8 is lost",
    ),
    (
        OPENED.replace(b"draw 3 0\n", b"draw 3 0\nshare 0 1000\nshare 0 9000\n"),
        "warning: line 8: the share of place 0 is set to 9000 again",
    ),
    (
        OPENED + b"relative 0 100000\nrelative 1 100000\n",
        "warning: line 11 to line 12: no open, quarter or close uses these relatives",
    ),
    (OPENED + b"relative 0 100000\ndraw 3 0\n", "warning: line 11: the draw that follows drops this relative"),
    (OPENED + b"unit 16 1 1\n", "warning: line 11: no draw uses this unit"),
]


def test_odd_jobs(t):
    """What a job probably does not mean is said in words; the job is run all the same."""
    commands.built()
    for lines, words in ODD:
        read, warnings = job.commands_of(lines)
        job.place_units(read, printed_by_chainrun)
        found = [f"warning: {warning}" for warning in warnings + job.warnings_of(read)]
        t.check(found[0].startswith(words) and len(found) == 1, "one warning", (words, found))
    for lines, words in ODD[:4]:
        status, _, said = run([RUN, "-"], text=lines)
        t.check(status == 0 and f"run.sh: standard input: {words}\n" == said, "said by the command", (words, status, said))
    for lines in (b"\xef\xbb\xbf" + REFERENCE, REFERENCE.replace(b"\n", b"\r\n")):
        answer = run([RUN, "-"], text=lines)
        t.check(answer == (0, PRINTED, ""), "a byte-order mark, line ends of two kinds", answer)
    t.check(run([RUN, "-"], text=REFERENCE.replace(b"\n", b"\r"))[:2] == (0, PRINTED), "line ends of the third kind")
    many = FRAME + b"draw 3 0\n" + b"relative 0 100000\n" * 30
    said = run([RUN, "-"], text=many)[2]
    t.check(said.count("\n") == 11 and "and 20 further warnings" in said, "a flood is cut", said)


BAD = [
    (
        b"open " + b"9" * 5_000,
        "line 1: start index 9999999999999999999999999999999999999999... (5000 characters) does not fit in 8 bytes",
    ),
    (b"sell\x1b[31m 3\n", "line 1: unknown command 'sell\\x1b[31m'"),
    (b"x" * 5_000, "... (5000 characters)'; known are unit, draw"),
    ("unit 1 2 3\n".encode("utf-16"), "line 1: the file is UTF-16 text; save it as UTF-8"),
    (generate.LISTING, "the file holds zero bytes, so it is no text; ./run.sh --stream FILE runs a stream of bytes"),
    (b"relative 0 1.02\n", "line 1: relative is '1.02', not a number in decimal digits"),
    (b"sell\n" * 30, "and 20 further bad lines"),
]


def test_bad_lines(t):
    for lines, words in BAD:
        status, printed, said = run([RUN, "-"], text=lines)
        t.check(
            (status, printed) == (2, b"") and words in said and len(said) < 2_000,
            "status 2, and a short message",
            (words, status, said),
        )
