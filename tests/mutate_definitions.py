"""Changes one comparison, constant, operation or order of a definition at a time and sees that something breaks.

    python3 tests/mutate_definitions.py [MODULE...]

For each change the reference table (crates/rules/proofs) is checked first, and if
it still holds, the cases of test_definitions.py. A change that both accept is
printed as SURVIVED: either it is equal in meaning, or a case is missing.
It is no part of the test command: it takes about half an hour.
"""

import os
import random
import re
import shutil
import subprocess
import sys
import tempfile

sys.path.insert(0, os.path.dirname(os.path.abspath(__file__)))

import definitions
import test_definitions

# what to look for in a line, and what to put in its place
CHANGES = [
    (r"\bleb\b", "ltb"),
    (r"\bltb\b", "leb"),
    (r" or ", " and "),
    (r" and ", " or "),
    (r"\bnot \(", "id ("),
    (r" \+ ", " * "),
    (r" - ", " + "),
    (r" \* ", " + "),
    (r" / ", " * "),
    (r"(?<![\w.])(\d+)(?![\w.])", "+1"),
    (r"(?<![\w.])(\d+)(?![\w.])", "-1"),
]


def changed(line):
    """Every line that one change makes of this one."""
    for pattern, put in CHANGES:
        for found in re.finditer(pattern, line):
            if put in ("+1", "-1"):
                number = int(found.group(1)) + int(put)
                if number < 0:
                    continue
                new = str(number)
            else:
                new = put.replace("id (", "(")
            yield line[: found.start()] + new + line[found.end() :]


def mutants(names):
    for file in sorted(os.listdir(os.path.join(definitions.RULES, "specs"))):
        module = file[: -len(".antt")]
        if file == "Lib.antt" or (names and module not in names):
            continue
        with open(os.path.join(definitions.RULES, "specs", file), encoding="utf-8") as f:
            lines = f.read().split("\n")
        for at, line in enumerate(lines):
            if re.match(r"^(--|use |infix|unfoldable|abbrev|pub |data|$)|^.* : .*→", line.strip()) or " : " in line:
                continue
            for new in changed(line):
                yield file, at, line, new, "\n".join(lines[:at] + [new] + lines[at + 1 :])


def table_holds(rules):
    run = subprocess.run(["rt", "check"], cwd=rules, capture_output=True, text=True)
    return run.returncode == 0


def caught_by(file, text, cases):
    """Who refuses the changed definition: "table", "cases", or None."""
    folder = tempfile.mkdtemp(prefix="mutant-")
    try:
        rules = os.path.join(folder, "crates", "rules")
        shutil.copytree(definitions.RULES, rules, ignore=shutil.ignore_patterns("out", "must-fail"))
        with open(os.path.join(folder, "crates.txt"), "w", encoding="utf-8") as f:
            f.write("rules:\n")
        with open(os.path.join(rules, "specs", file), "w", encoding="utf-8") as f:
            f.write(text)
        if not table_holds(rules):
            return "table"
        kept, definitions.RULES = definitions.RULES, rules
        try:
            refused, _ = definitions.refused_cases(cases)
        finally:
            definitions.RULES = kept
        return "cases" if refused is None or refused else None
    finally:
        shutil.rmtree(folder)


# the suites that a module's definitions show in first; the others are tried if these accept
NEAREST = {
    "TakeAll": ("frame",),
    "Kept": ("kept",),
    "Draw": ("frame", "kept"),
    "Selection": ("frame",),
    "Order": ("order",),
    "Rotation": ("rotation",),
    "Chain": ("open", "call"),
    "Panel": ("outside",),
    "Year": ("year", "events"),
    "Renewal": ("renewal",),
    "Events": ("events",),
    "Direct": ("direct", "outside", "course"),
    "Total": ("total",),
    "Stream": ("reading",),
    "Word": ("word",),
    "Lines": ("stream",),
    "Decimal": ("stream",),
    "Job": ("stream",),
    "Load": ("load",),
    "Allocation": ("sample",),
    "Register": ("register",),
    "Sheet": ("sheet",),
    "Writing": ("writing",),
}


def main(names):
    count = {"table": 0, "cases": 0, None: 0}
    for file, at, line, new, text in mutants(names):
        near = NEAREST.get(file[: -len(".antt")], ())
        far = tuple(name for name in test_definitions.SUITES if name not in near)
        who = None
        for suites in (near, far):
            who = who or caught_by(file, text, test_definitions.all_cases(random.Random(1), 1, suites))
        count[who] += 1
        print(f"{who or 'SURVIVED':9} {file}:{at + 1}: {new.strip()}", flush=True)
    print(f"{count['table']} caught by the table, {count['cases']} by the cases, {count[None]} survived")


if __name__ == "__main__":
    main(sys.argv[1:])
