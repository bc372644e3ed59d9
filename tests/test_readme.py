"""README.md: what it shows is what is printed, its words are explained, its tables have the names and numbers of the things."""

import re
import tempfile
from pathlib import Path

import commands
from commands import TOP, run
from test_examples import expected
from test_reference_cases import PRINTED

TEXT = (TOP / "README.md").read_text()
PROSE = re.sub(r"```.*?```", "", TEXT, flags=re.DOTALL)


def test_listings(t):
    """Every listing is what its command prints, and the job that is shown is the file."""
    commands.built()
    for what, listing in zip(("the example", "the job"), expected()):
        t.check(f"```\n{listing}```\n" in TEXT, f"what {what} prints", listing)
    t.check(f"```\n{PRINTED.decode()}```\n" in TEXT, "the reference listing")
    year = (TOP / "examples" / "year.txt").read_text()
    t.check(f"```\n{year}```\n" in TEXT, "the job of the year")
    with tempfile.TemporaryDirectory() as folder:
        (Path(folder) / "slip.txt").write_text(year.replace("unit 13  99000", "unit 13 990000"))
        status, printed, said = run([TOP / "run.sh", "slip.txt"], cwd=folder)
    t.check(status == 1 and f"```\n{said}```\n" in TEXT, "what is said of a slip", said)
    t.check(f"`{printed.decode().splitlines()[-1]}`" in PROSE, "and its last line", printed)


def test_one_sentence_a_line(t):
    for name in ("README.md", "docs/REFUSALS.md"):
        prose = re.sub(r"```.*?```", "", (TOP / name).read_text(), flags=re.DOTALL)
        for line in prose.splitlines():
            if not line.startswith(("|", "    ")):
                t.check(not re.search(r"[.!?] [A-Z`]", line), f"{name}: one sentence a line", line)


def test_words_are_explained(t):
    """The words that a statistician does not know are explained where they are first met."""
    for word, explanation in (
        ("contract", "contract, what it promises"),
        ("crate", "crate by crate (a crate is a part of the code"),
        ("must-fail edit", "must-fail edits: small wrong changes"),
        ("lent", "lent: the caller hands over"),
    ):
        t.check(explanation in PROSE and PROSE.index(explanation) == PROSE.index(word), f"{word} is explained where it is first met")


def test_names_of_the_benchmark(t):
    """The rows of the table are named as ./bench.sh prints them."""
    shapes = set(re.findall(r'return "(\w+)";', (TOP / "bench" / "frames.hpp").read_text()))
    rows = re.findall(r"^\| (draw|rotate) (\w+) \|", TEXT, re.MULTILINE)
    t.check({shape for what, shape in rows if what == "draw"} == shapes, "a row for each shape of draw", (rows, shapes))
    t.check({shape for _, shape in rows} <= shapes and ("rotate", "steady") in rows, "rotations by their shapes", rows)


def test_room_of_a_stream(t):
    """28 years of a panel of 40 from a frame of 300 fit a stream, and 29 do not."""
    unit, draw, relatives, opened, call = 17, 6, 40 * 6, 9, 1
    length = {years: 300 * unit + draw + relatives + opened + years * 4 * (relatives + call) for years in (28, 29)}
    t.check(length[28] <= 32_768 < length[29], "some 28 years", length)
    t.check("a frame of 300 units and a panel of 40, some 28 years" in PROSE, "as README.md says")
