"""What README.md and docs/ name is there: crates, functions, files, definitions, laws, tests and the toolchain."""

import re
import subprocess
import tempfile
from pathlib import Path

ROOT = Path(__file__).resolve().parent.parent
CRATES = [line.split(":")[0].split()[0] for line in (ROOT / "crates.txt").read_text().splitlines() if ":" in line]
DOCUMENTS = [ROOT / "README.md", *sorted((ROOT / "docs").glob("*.md"))]
ITEM = r"^\s*(?:pub )?(?:extern \"C\" )?(?:fn|struct|enum|const|mod) {}\b"
LAW = r"^\s*(?:abbrev |unfoldable |pub |data |record )*{}\s*(?:$|[:(])"


def text_of(folder, pattern):
    """The text of all files below a folder, joined."""
    return "\n".join(path.read_text() for path in sorted(folder.rglob(pattern)))


CODE = {name: text_of(ROOT / "crates" / name / "src", "*.rt") for name in CRATES}
SOURCE = "\n".join(CODE.values())
LAWS = "\n".join(text_of(ROOT / "crates" / name, "*.antt") for name in CRATES)
TESTS = text_of(ROOT / "tests", "*.py")


def quoted(text):
    """What stands between back quotes, without a listing's lines."""
    return re.findall(r"`([^`\n]+)`", re.sub(r"```.*?```", "", text, flags=re.DOTALL))


def has_item(name):
    """Whether `crate::item` is an item of that crate."""
    crate, *_, item = name.split("::")
    return crate in CODE and re.search(ITEM.format(re.escape(item)), CODE[crate], re.MULTILINE)


def has_file(name):
    """Whether a path from a crate's name on, or from the root on, leads to a file or a folder."""
    places = [ROOT / name, ROOT / "crates" / name]
    return any(place.with_name(place.name + ending).exists() for place in places for ending in ("", ".edit", ".antt"))


def has_name(name):
    """Whether a table's plain name is a crate, an item, a definition, a law, a file of these, or a test."""
    *_, last = name.split(".")
    return (
        name in CRATES
        or re.search(ITEM.format(re.escape(last)), SOURCE, re.MULTILINE)
        or re.search(LAW.format(re.escape(last)), LAWS, re.MULTILINE)
        or any(ROOT.glob(f"crates/*/*/{last}.antt"))
        or re.search(rf"^def {re.escape(last)}\b", TESTS, re.MULTILINE)
        or (ROOT / "tests" / f"{last}.py").exists()
    )


def test_items_and_files(t):
    for document in DOCUMENTS:
        for name in quoted(document.read_text()):
            if re.fullmatch(r"[a-z0-9_]+(::\w+)+", name):
                t.check(has_item(name), f"{document.name}: no item {name}")
            elif re.fullmatch(r"[\w-]+(/[\w+.-]+)+", name) and "NAME" not in name:
                t.check(has_file(name), f"{document.name}: no file {name}")


def test_table_cells(t):
    table = (ROOT / "docs" / "PROOFS.md").read_text().split("## Sentence by sentence")[1]
    for line in table.splitlines():
        if not line.startswith("| ") or line.startswith("|--"):
            continue
        cells = [cell.strip() for cell in line.strip("|").split("|")]
        t.check(all(cells), f"an empty cell: {line}")
        for name in quoted(" ".join(cells[1:])):
            if "::" not in name:
                t.check(has_name(name), f"PROOFS.md: nothing is called {name}")


def test_the_map_of_crates(t):
    named = re.findall(r"^\| `(\w+)` \|", (ROOT / "docs" / "CRATES.md").read_text(), re.MULTILINE)
    t.check(len(named) == len(set(named)), "docs/CRATES.md names a crate once")
    t.check(set(named) == set(CRATES), "docs/CRATES.md names every crate", sorted(set(named) ^ set(CRATES)))
    made = {path.name for path in (ROOT / "crates").iterdir()}
    t.check(made == set(CRATES), "crates.txt lists every crate", sorted(made ^ set(CRATES)))


def test_counts(t):
    edits = sum(1 for _ in (ROOT / "crates").glob("*/must-fail/*.edit"))
    for document in (ROOT / "README.md", ROOT / "docs" / "PROOFS.md"):
        for count in re.findall(r"(\d+) must-fail edits", document.read_text()):
            t.check(int(count) == edits, f"{document.name}: {count} must-fail edits, there are {edits}")
        for count in re.findall(r"all (\d+) crates", document.read_text()):
            t.check(int(count) == len(CRATES), f"{document.name}: {count} crates, there are {len(CRATES)}")


def printed_by_rt(*words, folder=ROOT):
    """What `rt` prints, of both kinds."""
    return subprocess.run(["rt", *words], cwd=folder, stdout=subprocess.PIPE, stderr=subprocess.STDOUT, text=True, check=True).stdout


def sum_of_a_check():
    """The logic's sum that the check of a small crate says at its end."""
    with tempfile.TemporaryDirectory() as folder:
        crate = Path(folder) / "crates" / "small"
        (crate / "src").mkdir(parents=True)
        (crate / "src" / "lib.rt").write_text("#![tactic(auto)]\n\npub fn one() -> u32 {\n    1\n}\n")
        (Path(folder) / "crates.txt").write_text("small:\n")
        said = printed_by_rt("check", folder=crate)
    return re.search(r"^logic=proved .*\bsum=(\w+)\b", said, re.MULTILINE)[1]


def test_toolchain(t):
    """The kit that PROOFS.md names is the one that checks the proofs."""
    section = (ROOT / "docs" / "PROOFS.md").read_text().split("\n## Toolchain\n")[1].split("\n## ")[0]
    named, version = re.findall(r"^    (.+)$", section, re.MULTILINE), printed_by_rt("version").strip()
    t.check(named == [version], "PROOFS.md: what `rt version` prints", (named, version))
    sums, checked = re.findall(r"sum=(\w+)", section), sum_of_a_check()
    t.check(sums == [checked], "PROOFS.md: the sum at the end of a check", (sums, checked))
