"""The refusals' numbers, names and words are the same wherever they stand; so are the limits."""

import re
import sys
from pathlib import Path

TOP = Path(__file__).resolve().parent.parent
sys.path.append(str(TOP / "tools"))

import limits
from words import REFUSALS

HEADER = (TOP / "include" / "vougecress.h").read_text()
# Limits that only the inside of a computation meets: they stand in no header and no message.
INNER = {"steps", "step_length", "bound_scale", "bound_factor", "link_scale", "state_factor", "state_addend", "turnover_range", "most_short", "most_long"}
INNER |= {"number_columns", "lowest_printable", "highest_printable", "change_scale", "figure_decimals", "change_decimals"}


def shouted(name):
    """FrameLists or most_frame as C and Python spell a constant."""
    return re.sub(r"(?<!^)([A-Z])", r"_\1", name).upper()


def enum_of_the_code():
    """The variants of the code's enum, and the variant of each number."""
    text = next(path.read_text() for path in TOP.glob("crates/*/src/*.rt") if "enum Refusal {" in path.read_text())
    body = text.split("enum Refusal {")[1].split("}")[0]
    variants = re.findall(r"^ +(\w+)", body, re.MULTILINE)
    numbers = {int(number): name for name, number in re.findall(r"(\w+) = (\d+),", body)}
    return variants, numbers


def test_the_enum(t):
    variants, numbers = enum_of_the_code()
    t.check(sorted(variants) == sorted(numbers.values()), "each variant has a number", (variants, numbers))
    t.check(numbers == {n: name for n, (name, _) in REFUSALS.items()}, "tools/words.py has the enum's numbers and names", numbers)


def test_words_of_the_definitions(t):
    """Each case stands under its words where the number is defined."""
    text = next(path.read_text() for path in TOP.glob("crates/*/specs/*.antt") if "\nnumber_of FrameLists = 1\n" in path.read_text())
    for number, (name, words) in REFUSALS.items():
        comment = re.search(rf"-- (.*)\nnumber_of {name} = {number}\n", text)
        t.check(comment is not None, f"number_of {name} is {number}")
        quoted = comment[1].split('"')[1].replace("likewise", "at open or after close")
        t.check(words.startswith(quoted), f"the words of {number}", (quoted, words))


def test_the_table(t):
    rows = {}
    for line in (TOP / "docs" / "REFUSALS.md").read_text().splitlines():
        cells = [cell.strip() for cell in line.strip("|").split("|")]
        if line.startswith("| ") and cells[0].isdigit():
            t.check(len(cells) == 5 and all(cells), "five cells, none empty", line)
            rows[int(cells[0])] = (cells[2].strip("`"), cells[1])
    t.check(rows == REFUSALS, "docs/REFUSALS.md has every number, name and words", rows)


def test_the_table_of_the_readme(t):
    text = (TOP / "README.md").read_text()
    rows = {int(number): words for number, words in re.findall(r"^\| (\d+) \| ([^|]+?) \|$", text, re.MULTILINE)}
    t.check(rows == {n: words for n, (_, words) in REFUSALS.items()}, "README.md has every number and its words", rows)


def test_the_header(t):
    enum = re.search(r"enum vougecress_refusal \{(.*?)\};", HEADER, re.DOTALL)[1]
    rows = re.findall(r"VOUGECRESS_REFUSED_(\w+) = (\d+),?\s*/\* (.*?) \*/", enum)
    found = {int(number): (name, words) for name, number, words in rows}
    wanted = {n: (shouted(name), words) for n, (name, words) in REFUSALS.items()}
    t.check(found == wanted, "the header's enum has every number, name and words", found)


def test_limits(t):
    text = next(iter(TOP.glob("crates/*/specs/Limits.antt"))).read_text()
    defined = {name: int(value) for name, value in re.findall(r"^(\w+) = (\d+)$", text, re.MULTILINE)}
    header = dict(re.findall(r"#define VOUGECRESS_(\w+) (?:UINT64_C\()?(\d+)", HEADER))
    for name, value in defined.items():
        if name not in INNER:
            t.check(header.get(shouted(name)) == str(value), f"the header's {shouted(name)}", (value, header.get(shouted(name))))
        ours = getattr(limits, shouted(name), value)
        t.check(ours == value, f"tools/limits.py has {shouted(name)}", (value, ours))
    known = {shouted(name) for name in defined}
    for name in vars(limits):
        if not name.startswith("_"):
            t.check(name in known, f"tools/limits.py: {name} is a limit of the definitions")
