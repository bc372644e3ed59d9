"""Hands cases to the definitions of crates/rules and has the prover compute them.

A case is an expression over the definitions and the value that the independent
computation gives. Each becomes a declaration `expression ≡ value`, proved by
computing alone, in a crate that is made in a temporary folder beside a copy of
`rules`. So a definition that says something else than document 01's sentence, as
the independent computation reads it, fails to check.
"""

import os
import re
import shutil
import subprocess
import tempfile

HERE = os.path.dirname(os.path.abspath(__file__))
RULES = os.path.join(os.path.dirname(HERE), "crates", "rules")

# What a goal may compute with: every definition marked `unfoldable` in rules/specs.
UNFOLDABLE = re.compile(r"^unfoldable pub (\S+) :", re.M)
NAMES = re.compile(r"^(?:unfoldable pub|abbrev pub|pub data|pub record) (\S+) ", re.M)


def number_list(values):
    """A list as antt writes it; long runs are written by a rule, so that they stay short."""
    values = list(values)
    if len(values) > 8 and len(set(values)) == 1:
        return f"(replicate {len(values)} {values[0]})"
    if len(values) > 8 and values == list(range(len(values))):
        return f"(upFrom 0 {len(values)})"
    return "(" + " ∷ ".join([str(v) for v in values] + ["[]"]) + ")"


def modules():
    """Each module of rules/specs with the names that it makes public."""
    found = {}
    for file in sorted(os.listdir(os.path.join(RULES, "specs"))):
        if file != "Lib.antt":
            with open(os.path.join(RULES, "specs", file), encoding="utf-8") as f:
                text = f.read()
            found[file[: -len(".antt")]] = (NAMES.findall(text), UNFOLDABLE.findall(text))
    return found


# Its names are not needed: the other definitions compute with them.
HIDDEN = {"Limits"}


def header(found):
    lines = [
        "-- Made by tests/definitions.py: cases of the independent computation.",
        "use Rattle.std.specs.Prelude.{◌≡◌, refl, ℕ, zero, suc, ◌*◌, List, [], ◌∷◌, ◌++◌, replicate, ℤ, pos, negsuc}",
    ]
    seen = set()  # a record's name may stand in two modules; no case names one
    for module, (names, _) in found.items():
        if module not in HIDDEN:
            lines.append(f"use Rattle.rules.specs.{module}.{{{', '.join(name for name in names if name not in seen)}}}")
            seen.update(names)
    lines += [
        "",
        "abbrev upFrom : ℕ → ℕ → List ℕ",
        "upFrom from zero = []",
        "upFrom from (suc n) = from ∷ upFrom (suc from) n",
        "",
    ]
    return lines


def source(cases):
    """The file of cases, and the names that the prover uses for them."""
    found = modules()
    opened = [name for module, (_, names) in found.items() if module not in HIDDEN for name in names]
    lines = header(found)
    for i, (expression, value) in enumerate(cases):
        lines += [
            f"case-{i} : {expression} ≡ {value}",
            f"unfolding {' '.join(opened)}",
            f"case-{i} = refl",
            "",
        ]
    return "\n".join(lines)


def refused_cases(cases):
    """Numbers of the cases that do not hold by computing, and what the prover said.

    None in place of the numbers says that the prover stopped for another reason.
    """
    folder = tempfile.mkdtemp(prefix="definitions-")
    try:
        shutil.copytree(RULES, os.path.join(folder, "crates", "rules"), ignore=shutil.ignore_patterns("out", "must-fail"))
        crate = os.path.join(folder, "crates", "cases")
        os.makedirs(os.path.join(crate, "src"))
        os.makedirs(os.path.join(crate, "specs"))
        texts = {
            os.path.join(folder, "crates.txt"): "rules:\ncases: rules\n",
            os.path.join(crate, "src", "lib.rt"): "// Cases of the definitions.\n#![tactic(auto)]\n",
            os.path.join(crate, "specs", "Lib.antt"): "pub mod Cases\n",
            os.path.join(crate, "specs", "Cases.antt"): source(cases),
        }
        for path, text in texts.items():
            with open(path, "w", encoding="utf-8") as f:
                f.write(text)
        run = subprocess.run(["rt", "check"], cwd=crate, capture_output=True, text=True)
        said = run.stdout + run.stderr
        if run.returncode == 0 and "logic=proved" in said:
            return [], said
        numbers = sorted({int(n) for n in re.findall(r"`case-(\d+)`", said)})
        return (numbers or None), said
    finally:
        shutil.rmtree(folder)
