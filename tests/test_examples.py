"""The worked year in C, in Python and as a job: all print what the independent computation gives."""

import re
import subprocess
import sys
import tempfile
from pathlib import Path

import commands
import generate
import library
from cases.samples import WORKED
from independent import Refused, chain, frame, kept, load, outside, panels, register, sample, sheet

TOP = Path(__file__).resolve().parent.parent
NUMBERS, TURNOVERS = [11, 12, 13, 14, 15], [70_000_000, 10_000_000, 8_000_000, 7_000_000, 5_000_000]
RANDOMS = [300_000, 500_000, 200_000, 900_000, 100_000]
SIZE = 3


def drawn_from(start):
    """The panel, its weights, and the lines that say them: those of the examples and those of the job."""
    drawn, panel, weights = frame.draw(NUMBERS, TURNOVERS, RANDOMS, SIZE, start, [0] * SIZE, [0] * SIZE)
    _, marks = frame.take_all_entry(TURNOVERS, SIZE, [0] * len(NUMBERS))
    lines = [f"draw from start {start}: n = {drawn.n}, X = {drawn.X}"]
    for unit, weight in zip(panel, weights):
        lines.append(f"  unit {unit} weight {weight} {'take-all' if marks[NUMBERS.index(unit)] else 'sampled'}")
    return panel, weights, lines, [f"P {unit} {weight}" for unit, weight in zip(panel, weights)]


def expected():
    """What the examples print and what the job prints, reckoned independently."""
    panel, weights, lines, job = drawn_from(0)
    record = chain.open_chain(weights, [10_000] * SIZE, [100_000] * SIZE, 10**9)
    lines.append("opened at 1000000000")
    for name, relatives in (("first", [102_000] * SIZE), ("second", [104_040] * SIZE), ("third", [105_000, 99_000, 115_000])):
        figure = chain.quarter(record, relatives)[1].F
        lines.append(f"{name} quarter: {figure}")
        job.append(f"Q {figure}")
    record, figure = chain.close(record, [105_000, 98_000, 120_000])
    lines.append(f"close of the year: {figure.F}")
    job.append(f"C {figure.F}")
    turn, leavers = frame.rotate(NUMBERS, TURNOVERS, RANDOMS, SIZE, 0, panel, 500, 0, 0, [], [0] * SIZE)
    left = " ".join(str(unit) for unit in leavers[: turn.count])
    lines.append(f"rotation of half: step {turn.k}, new start {turn.new_start}, leavers {left}")
    _, weights, drawn, printed = drawn_from(turn.new_start)
    record = chain.open_chain(weights, [10_000] * SIZE, [105_000, 103_000, 98_000], figure.F)
    quarter = chain.quarter(record, [100_000, 101_000, 102_000])[1].F
    lines += [*drawn, f"opened at {figure.F}", f"first quarter: {quarter}"]
    job += [*printed, f"Q {quarter}"]
    refused = chain.quarter(record, [24_999, 100_000, 100_000])[1].number
    lines.append(f"a relative of 24,999: refusal {refused} (relatives)")
    lines.append(f"total of the year over two sectors: {chain.total([600_000, 400_000], [figure.F, 10**9]).total}")
    return "".join(line + "\n" for line in lines), "".join(line + "\n" for line in job)


def test_examples(t):
    library.built()
    wanted, _ = expected()
    with tempfile.TemporaryDirectory() as folder:
        program = str(Path(folder) / "example")
        build = ["gcc", "-std=c99", "-Wall", "-Wextra", "-Werror", "-o", program, "examples/example.c", "-Ibuild", "build/libvougecress.a"]
        made = subprocess.run(build, cwd=TOP, capture_output=True, text=True)
        t.check(made.returncode == 0, "the example in C compiles without a warning", repeat=made.stderr)
        done = subprocess.run([program], capture_output=True, text=True)
        t.check((done.returncode, done.stdout) == (0, wanted), "the example in C prints what the independent computation gives", done)
    done = subprocess.run(["python3", "examples/example.py"], cwd=TOP, capture_output=True, text=True)
    t.check((done.returncode, done.stdout) == (0, wanted), "the example in Python prints the same", done)


def test_the_year_as_a_job(t):
    commands.built()
    _, wanted = expected()
    answer = commands.run([TOP / "run.sh", "examples/year.txt"])
    t.check(answer == (0, wanted.encode(), ""), "the job prints what the independent computation gives", answer)


def test_the_mistake(t):
    """102,000 twice gives the same figure twice, since both are measured against the opening."""
    commands.built()
    year = (TOP / "examples" / "year.txt").read_bytes()
    status, printed, said = commands.run([TOP / "run.sh", "-"], text=year.replace(b" 104040\n", b" 102000\n"))
    t.check((status, said) == (0, "") and printed.decode().split()[9:13] == ["Q", "1020000000"] * 2, "the same figure twice", printed)
    for file in ("README.md", "include/vougecress.h", "examples/make_stream.py", "tools/job.py"):
        text = " ".join((TOP / file).read_text().replace(",", "").split()).replace(" * ", " ")
        t.check("quarter before" in text and "104040" in text and "same figure twice" in text, f"{file} says it", file)


def test_every_call_of_the_example_is_looked_at(t):
    """No answer of the library is used before its refusal: each call stands in `accepted`, or is followed by it."""
    text = (TOP / "examples" / "example.c").read_text()
    calls = len(re.findall(r"\bvougecress_(?!version)\w+\(", text))
    looked_at = text.count("accepted(\"") + text.count("accepted(name") + text.count("uint32_t refusal = vougecress_")
    t.check(calls == looked_at, "a look for each call", (calls, looked_at))


def test_write_stream(t):
    """The library's writer makes the bytes of make_stream.py, the listing's 156 among them; read again they are its lines; faults are said."""
    library.built()

    def ran(*words):
        done = subprocess.run([sys.executable, *words], cwd=TOP, capture_output=True)
        return done.returncode, done.stdout, done.stderr.decode()

    with tempfile.TemporaryDirectory() as folder:
        for name in ("reference.txt", "year.txt"):
            status, stream, said = ran("examples/write_stream.py", f"examples/{name}")
            t.check((status, said) == (0, ""), f"{name} is written", said)
            t.check(stream == ran("examples/make_stream.py", f"examples/{name}")[1], f"{name}: the bytes of make_stream.py", stream)
            file = Path(folder) / "job.stream"
            file.write_bytes(stream)
            lines = ran("examples/write_stream.py", "--read", str(file))
            again = Path(folder) / "again.txt"
            again.write_bytes(lines[1])
            t.check(ran("examples/write_stream.py", str(again)) == (0, stream, ""), f"{name}: read and written again", lines)
            if name == "reference.txt":
                t.check(stream == generate.LISTING and len(stream) == 156, "the listing's 156 bytes", stream)
                t.check("".join(line + "\n" for line in lines[1].decode().splitlines()[-4:]) in (TOP / "README.md").read_text(), "README.md shows the end of it", lines)
        bad = Path(folder) / "bad"
        for octets, words, status in ((b"\x08", ("--read",), 1), (b"close\n" * 32_769, (), 1), (b"sell 3\n", (), 2)):
            bad.write_bytes(octets)
            answer = ran("examples/write_stream.py", *words, str(bad))
            t.check((answer[0], answer[1], bool(answer[2])) == (status, b"", True), "a fault is said", answer)
    t.check(ran("examples/write_stream.py")[0] == 2, "wrong use")


def test_methods(t):
    """The worked panels of document 02, [8], by each method, as the example prints them and as README shows them."""
    library.built()
    lists = ([1, 2, 3, 4], [50, 20, 50, 20], [400_000, 700_000, 0, 100_000])
    wanted = ""
    for method, key in (("Pareto", frame.pareto_key), ("sequential Poisson", frame.poisson_key)):
        drawn, panel, weights = frame.draw(*lists, 2, 0, [0] * 2, [0] * 2, key=key)
        units, weights = (" ".join(map(str, values)) for values in (panel, weights))
        wanted += f"{method}: n = {drawn.n}, X = {drawn.X}, units {units}, weights {weights}\n"
    done = subprocess.run([sys.executable, TOP / "examples" / "methods.py"], capture_output=True, text=True)
    t.check((done.returncode, done.stdout) == (0, wanted), "a panel by each method", done)
    t.check(wanted in (TOP / "README.md").read_text(), "README.md shows them", wanted)


def test_leavers(t):
    """The worked leavers of document 02, [1], as the example prints them and as README shows them."""
    library.built()
    lists = ([1, 2, 3, 4, 5, 6], [10, 30, 20, 30, 25, 15], [100_000, 50_000, 150_000, 20_000, 900_000, 950_000])
    turn, leavers = frame.rotate(*lists, 1, 0, [1, 2, 3, 4], 1_000, 0, 0, [], [0] * 4)
    lines = [f"step {turn.k}, new start {turn.new_start}"] + [f"unit {unit} turnover {lists[1][unit - 1]}" for unit in leavers]
    wanted = "".join(line + "\n" for line in lines)
    done = subprocess.run([sys.executable, TOP / "examples" / "leavers.py"], capture_output=True, text=True)
    t.check((done.returncode, done.stdout) == (0, wanted), "the leavers in order", done)
    t.check(wanted in (TOP / "README.md").read_text(), "README.md shows them", wanted)


def test_births(t):
    """A birth at the border of document 02, [2], as the example prints it and as README shows it."""
    library.built()
    wanted = ""
    for rest in (40_000_000, 39_999_999):
        turn, leavers = frame.rotate(NUMBERS, TURNOVERS, RANDOMS, SIZE, 0, [13, 15], 500, 2, rest, [12], [0] * 3)
        left = " ".join(str(unit) for unit in leavers[: turn.count])
        wanted += f"X {rest}: step {turn.k}, new start {turn.new_start}, leavers {left}\n"
    done = subprocess.run([sys.executable, TOP / "examples" / "births.py"], capture_output=True, text=True)
    t.check((done.returncode, done.stdout) == (0, wanted), "a birth stays out, and joins", done)
    t.check(wanted in (TOP / "README.md").read_text(), "README.md shows them", wanted)


def test_one_year(t):
    """A year as the independent computation has it; README shows the accepted one; a refused year is said."""
    library.built()
    for relatives in (["101000", "102000", "103000", "104000"], ["101000", "102000", "24999", "104000"], ["1", "1", "1", "1"]):
        done = subprocess.run([sys.executable, TOP / "examples" / "one_year.py", *relatives], capture_output=True, text=True)
        opened = chain.open_chain([2_000_000], [10_000], [100_000], 10**9)
        record, figures, answer = chain.year(opened, *([int(word)] for word in relatives), [0] * 4)
        lines = [f"{'C' if place == 3 else 'Q'} {figures[place]}" for place in range(answer.count)]
        wanted = "".join(line + "\n" for line in lines + [f"index {record.index}, closes {record.closes}"])
        refused = isinstance(answer, Refused)
        t.check((done.returncode, done.stdout, bool(done.stderr)) == (int(refused), wanted, refused), "the year", (relatives, done))
        t.check(refused or wanted in (TOP / "README.md").read_text(), "README.md shows it", wanted)
    done = subprocess.run([sys.executable, TOP / "examples" / "one_year.py", "1"], capture_output=True, text=True)
    t.check((done.returncode, done.stdout) == (2, ""), "wrong use", done)


def test_kept(t):
    """A firm at the border, as the example prints it and as README shows it."""
    library.built()
    numbers, randoms = [11, 12, 13, 14, 15], [300_000, 900_000, 200_000, 500_000, 100_000]
    first, second = ([70_000_000, its, 8_000_000, 7_000_000, 5_000_000] for its in (25_000_000, 9_500_000))
    taken, units = frame.take_all_units(numbers, first, 3, 600, [], [], [0] * 3)
    before = units[: taken.q]
    lines = ["take-all of the first year: " + " ".join(map(str, before))]
    for name, listed in (("no list", []), ("with it", before)):
        drawn, panel, _ = kept.draw(numbers, second, randoms, 3, 0, 600, listed, [], [0] * 3, [0] * 3)
        lines.append(f"second year, {name}: panel {' '.join(map(str, panel))}, n {drawn.n}, X {drawn.X}")
    wanted = "".join(line + "\n" for line in lines)
    done = subprocess.run([sys.executable, TOP / "examples" / "kept.py"], capture_output=True, text=True)
    t.check((done.returncode, done.stdout) == (0, wanted), "the firm at the border", done)
    t.check(wanted in (TOP / "README.md").read_text(), "README.md shows it", wanted)


def test_renewals(t):
    """One chain through three panels, as the independent computation has it and as README shows it."""
    library.built()

    def held(record):
        return f"units {record.units}, closes {record.closes}, links {record.links}"

    def whole(W, **outside_share):
        return {"W": W, "g": [10_000] * len(W), "a": [100_000] * len(W), **outside_share}

    record = chain.open_chain(start=10**9, **whole([2_000_000] * 2))
    lines = [f"opened at {record.index}, {held(record)}"]
    for relatives, opening, said in (
        ([110_000, 100_000], whole([3_000_000]), ""),
        ([104_000], whole([8_000_000, 4_000_000, 4_000_000], marks=[0, 1, 1], G=8_000), " with an outside share"),
    ):
        record, answer = chain.close(record, relatives)
        lines.append(f"close: {answer.F}, {held(record)}")
        record, _ = panels.renew(record, **opening)
        lines.append(f"renewed at {record.index}{said}, {held(record)}")
    lines.append(f"quarter: {chain.quarter(record, [101_000, 102_000, 103_000])[1].F}, {held(record)}")
    wanted = "".join(line + "\n" for line in lines)
    done = subprocess.run([sys.executable, TOP / "examples" / "renewals.py"], capture_output=True, text=True)
    t.check((done.returncode, done.stdout) == (0, wanted), "the chain through its panels", done)
    t.check(wanted in (TOP / "README.md").read_text(), "README.md shows it", wanted)


def test_make_load(t):
    """The lines are the independent computation's; README shows the first three; a fault ends with a message and a status."""
    library.built()
    for start, count in ((12_345, 3), (0, 1), (2**31 - 1, 1_000)):
        done = subprocess.run([sys.executable, TOP / "examples" / "make_load.py", str(start), str(count)], capture_output=True, text=True)
        wanted = "".join(f"{number},{turnover},{random}\n" for number, turnover, random in load.units(start, count))
        t.check((done.returncode, done.stdout) == (0, wanted), "a load as comma lines", (start, count, done.stderr))
        if count == 3:
            t.check(wanted in (TOP / "README.md").read_text(), "README.md shows the load", wanted)
    for words, status in ((("2147483648", "3"), 1), (("1", "0"), 1), (("1", "16385"), 1), (("1",), 2), (("-1", "3"), 2), (("x", "3"), 2)):
        done = subprocess.run([sys.executable, TOP / "examples" / "make_load.py", *words], capture_output=True, text=True)
        t.check((done.returncode, done.stdout, bool(done.stderr)) == (status, "", True), "a fault is said", (words, done))


def test_share_sample(t):
    """The lines are the independent computation's; README shows one; a fault ends with a message and a status."""
    library.built()
    for what, (interviews, strengths, minima) in WORKED.items():
        words = [str(interviews), *(f"{strength},{minimum}" for strength, minimum in zip(strengths, minima))]
        done = subprocess.run([sys.executable, TOP / "examples" / "share_sample.py", *words], capture_output=True, text=True)
        told = sample.share(interviews, strengths, minima)
        rows = zip(range(1, len(strengths) + 1), strengths, minima, told.counts, told.wholes, told.remainders)
        wanted = "".join(",".join(map(str, row)) + "\n" for row in rows)
        t.check((done.returncode, done.stdout) == (0, wanted), "a sample as comma lines", (what, done.stdout, done.stderr))
        if what == "two passes":
            text = (TOP / "README.md").read_text()
            t.check(wanted in text and " ".join(words) in text, "README.md shows the sample", wanted)
    for words, status in ((("10", "6,11"), 1), (("6401", "1,1"), 1), (("10",), 2), (("10", "6"), 2), (("-1", "6,1"), 2), (("10", "x,1"), 2)):
        done = subprocess.run([sys.executable, TOP / "examples" / "share_sample.py", *words], capture_output=True, text=True)
        t.check((done.returncode, done.stdout, bool(done.stderr)) == (status, "", True), "a fault is said", (words, done))
def test_open_outside(t):
    """A panel is drawn, marked and opened with G; README shows one; a fault ends with a message and a status."""
    library.built()
    _, panel, weights = frame.draw(NUMBERS, TURNOVERS, RANDOMS, SIZE, 0, [0] * SIZE, [0] * SIZE)
    _, group = frame.take_all_entry(TURNOVERS, SIZE, [0] * len(NUMBERS))
    marks = [0 if group[NUMBERS.index(unit)] else 1 for unit in panel]
    script = TOP / "examples" / "open_outside.py"
    for words in (["3000", "10000", "5000", "2500"], ["10000", "10000", "10000", "0"]):
        G, *g = map(int, words)
        record = outside.open_outside(weights, g, [100_000 if share else 0 for share in g], 10**9, marks, G)
        rows = zip(panel, weights, marks, record.weights)
        wanted = "".join(f"{unit} {W} {'sampled' if mark else 'take-all'} {v}\n" for unit, W, mark, v in rows)
        done = subprocess.run([sys.executable, script, *words], capture_output=True, text=True)
        t.check((done.returncode, done.stdout) == (0, wanted), "an opening with an outside share", (words, done.stdout, done.stderr))
        if G == 3000:
            readme = (TOP / "README.md").read_text()
            t.check(wanted in readme and " ".join(words) in readme, "README.md shows the opening", wanted)
    for words, status in ((["0", "10000", "5000", "2500"], 1), (["3000", "10000", "0", "0"], 1), (["3000"], 2), (["x", "1", "1", "1"], 2)):
        done = subprocess.run([sys.executable, script, *words], capture_output=True, text=True)
        t.check((done.returncode, done.stdout, bool(done.stderr)) == (status, "", True), "a fault is said", (words, done))


def drawn(folder, name, text, *words):
    """What examples/draw_register.py answers to a register."""
    (folder / name).write_bytes(text)
    done = subprocess.run([sys.executable, TOP / "examples" / "draw_register.py", name, *words], cwd=folder, capture_output=True, text=True)
    return done.returncode, done.stdout, done.stderr


def test_draw_register(t):
    """File, import and draw; what each refusal looks like is what README shows."""
    library.built()
    readme = (TOP / "README.md").read_text()
    text = (TOP / "examples" / "register.csv").read_bytes()
    numbers, turnovers, randoms = map(list, zip(*register.units_of(text)))
    answer, panel, weights = frame.draw(numbers, turnovers, randoms, 3, 0, [0] * 3, [0] * 3)
    wanted = f"N {answer.n} {answer.X}\n" + "".join(f"P {unit} {weight}\n" for unit, weight in zip(panel, weights))
    t.check(wanted in readme, "README.md shows the panel", wanted)
    with tempfile.TemporaryDirectory() as folder:
        folder = Path(folder)
        t.check(drawn(folder, "good.csv", text, "3", "0") == (0, wanted, ""), "the panel of a register")
        first, rest = text[:38], text[38:]
        status, printed, said = drawn(folder, "broken.csv", first + b"number,turnover,random\n" + rest, "3", "0")
        t.check((status, printed, said in readme) == (1, "", True), "34 with offset and line, as README shows it", said)
        status, printed, said = drawn(folder, "long.csv", b"1,2,3\n" * 16_385, "3", "0")
        t.check((status, printed) == (1, "") and "refusal 35: more than 16,384 lines" in said, "35", said)
        status, printed, said = drawn(folder, "empty.csv", b"", "3", "0")
        t.check((status, printed) == (1, "") and "refused by 1 " in said, "no units: the draw's own refusal", said)
        for words in ((), ("3",), ("3", "x"), ("-1", "0")):
            t.check(drawn(folder, "good.csv", text, *words)[0] == 2, "wrong use", words)
        done = subprocess.run([sys.executable, TOP / "examples" / "draw_register.py", "none.csv", "3", "0"], cwd=folder, capture_output=True, text=True)
        t.check((done.returncode, bool(done.stderr)) == (2, True), "no such file", done.stderr)
def test_make_sheet(t):
    """The lines are the independent computation's, the last of the totals; README shows them; a fault ends with a message and a status."""
    library.built()
    example = [TOP / "examples" / "make_sheet.py"]
    rows = [row.split(maxsplit=3) for row in (TOP / "examples" / "sheet.txt").read_bytes().splitlines()]
    shares, new, old = ([int(row[k]) for row in rows] for k in range(3))
    totals = [chain.total(shares, figures).total for figures in (new, old)]
    lines = [*zip((row[3] for row in rows), new, old), (b"Total", *totals)]
    wanted = b"".join(sheet.line(*row) for row in lines).decode()
    done = subprocess.run([sys.executable, *example, TOP / "examples" / "sheet.txt"], capture_output=True, text=True)
    t.check((done.returncode, done.stdout) == (0, wanted), "the sheet of several sectors and a total", done)
    t.check(wanted in (TOP / "README.md").read_text(), "README.md shows the sheet", wanted)
    faults = ((b"1000000 1000000000 1000000000 A name of 21 bytes...\n", 1), (b"999999 1000000000 1000000000 Sea\n", 1), (b"", 2), (b"1 2 x y\n", 2), (b"1 2 3\n", 2))
    for text, status in faults:
        with tempfile.NamedTemporaryFile() as file:
            file.write(text)
            file.flush()
            done = subprocess.run([sys.executable, *example, file.name], capture_output=True, text=True)
        t.check((done.returncode, done.stdout, bool(done.stderr)) == (status, "", True), "a fault is said", (text, done))
