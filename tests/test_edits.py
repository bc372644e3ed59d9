"""The must-fail edits fit the code: what `rt ci` would say after minutes, said at once."""

from pathlib import Path

CRATES = Path(__file__).resolve().parent.parent / "crates"


def faults_of(edit):
    """What keeps an edit from being applied."""
    crate = edit.parent.parent
    path, old, texts, pairs = None, None, {}, 0
    for line in edit.read_text().splitlines():
        if line.startswith("file: "):
            path = crate / line[len("file: ") :]
            if not path.is_file():
                return [f"no file {path.name}"]
            texts.setdefault(path, path.read_text())
        elif line.startswith("old: "):
            old = line[len("old: ") :]
        elif line.startswith("new:"):
            if path is None or old is None:
                return ["a new: line without a file: and an old: line"]
            count = texts[path].count(old)
            if count != 1:
                return [f"{path.name} has {count} times: {old.strip()}"]
            texts[path] = texts[path].replace(old, line[len("new:") :].removeprefix(" "))
            old, pairs = None, pairs + 1
    return [] if pairs else ["it changes nothing"]


def test_edits_fit(t):
    for edit in sorted(CRATES.glob("*/must-fail/*.edit")):
        faults = faults_of(edit)
        t.check(not faults, f"{edit.parent.parent.name}/{edit.stem}: {faults}")


def test_crates_have_edits(t):
    for crate in sorted(CRATES.iterdir()):
        t.check(any((crate / "must-fail").glob("*.edit")), f"{crate.name} has no must-fail edit")
