#!/usr/bin/env python3
"""Spells the repository's own definitions and lemmas as today's Rattle does: words in snake case.

usage: tools/respell.py [--check]      at the top of the repository, once, after the kit's port.py

port.py turns the names that the kit's own tables have; this turns the others that the files of specs/ and proofs/
declare: `takeAllGroup` to `take_all_group`, `drawn-here` to `drawn_here`. Types and modules stay in camel case, and so
does what begins with a type's name. Names that Rattle makes (they have dashes) and functions and fields of src/ stay.
It turns whole words: in .antt files, in the clauses and `ghost use` lines of .rt files, in must-fail edits, in tests/,
and in docs/ and README.md between backticks. Where two names would fall together in a file, it says so. Nothing is
written if they are two names of ours; a function of src/ may be called as the definition that it computes.
--check writes nothing in any case.
"""

import collections
import glob
import os
import re
import sys

WORD = re.compile(r'[^\s(){}.;,@"«»`|]+')
DECLARED = re.compile(r"^\s*(?:(?:abbrev|unfoldable|pub|data|record)\s+)*([^\s:().{},;`]+)\s*(?:\{[^{}\n]*\}\s*)*:(?:\s|$)(.*)")
CAMEL = re.compile(r"(?<=[a-z0-9])[A-Z]")
CLAUSE = re.compile(r"\b(?:requires|ensures)\b\*?\s*(?:\w+\s*)?\{|\bghost\s+(?!use\b)\w+\s*:?\s*\{")


def snake(name):
    """The name in snake case; a name that begins with a type keeps its first part."""
    head = re.match(r"[A-Z]\w*", name)
    if head:
        return head[0] + CAMEL.sub(lambda m: "_" + m[0].lower(), name[head.end() :])
    return CAMEL.sub(lambda m: "_" + m[0].lower(), name).replace("-", "_")


def files(*patterns):
    found = []
    for pattern in patterns:
        found += glob.glob(os.path.join("crates", pattern), recursive=True)
    return sorted(p for p in found if "/out/" not in p)


def declared(texts):
    """What the files of specs/ and proofs/ declare, and which of it are fields alone; not the goals of functions, whose names Rattle makes."""
    names, others = set(), set()
    for text in texts:
        depth = None  # the indent of the record whose fields are read
        for line in text.split("\n"):
            indent = len(line) - len(line.lstrip())
            if line.strip() and depth is not None and indent <= depth:
                depth = None
            m = DECLARED.match(line)
            if m and not re.match(r"\s*(?:tie|goal)\.", m[2]) and not m[1].startswith("--"):
                names.add(m[1])
                if depth is None:
                    others.add(m[1])
            if re.match(r"\s*(?:pub )?record ", line):
                depth = indent
    return names, names - others


def table(names, fields, texts):
    """Old and new spelling; of names that would be one, a lemma gets `_lem`, and a field where it meets the other in a file."""
    groups = collections.defaultdict(list)
    for name in names:
        if re.match(r"[A-Za-z]", name) and not name.endswith("-spec"):
            groups[snake(name)].append(name)
    turned = {}
    for new, olds in groups.items():
        # The definition first, in camel case or in the spelling that port.py gave it.
        olds.sort(key=lambda name: (not CAMEL.search(name), "-" in name))
        if len(olds) > 2:
            sys.exit(f"{', '.join(olds)} would be one name")
        met = len(olds) == 2 and (not fields.intersection(olds) or any(set(olds) <= words for words in texts))
        turned[olds[0]] = new
        if len(olds) == 2:
            turned[olds[1]] = new + "_lem" if met else new
    return {old: new for old, new in turned.items() if old != new}


def clauses(text):
    """The places of a .rt file that are antt: clauses and `ghost use` items, as (begin, end)."""
    found = [(m.start(), m.end()) for m in re.finditer(r"\bghost use\b[^;]*;", text)]
    for m in CLAUSE.finditer(text):
        depth, at = 1, m.end()
        while depth and at < len(text):
            depth += {"{": 1, "}": -1}.get(text[at], 0)
            at += 1
        found.append((m.end(), at))
    return sorted(found)


def turn(text, turned):
    return WORD.sub(lambda m: turned.get(m[0], m[0]), text)


def turn_rust(text, turned):
    out, at = [], 0
    for begin, end in clauses(text):
        if begin >= at:
            out += [text[at:begin], turn(text[begin:end], turned)]
            at = end
    return "".join(out) + text[at:]


def turn_edit(text, turned, of_rust):
    """An edit's old and new lines: antt whole, and of a .rt file the clause alone, which an edit's line shows a part of."""
    lines = []
    file = ""
    for line in text.split("\n"):
        if line.startswith("file:"):
            file = line[5:].strip()
        if line.startswith(("old:", "new:")) and (file.endswith(".antt") or of_rust.search(line)):
            line = line[:4] + turn(line[4:], turned)
        lines.append(line)
    return "\n".join(lines)


def meetings(path, text, turned):
    """Pairs of different words of a text that would be one afterwards."""
    by = collections.defaultdict(set)
    for word in set(WORD.findall(text)):
        by[turned.get(word, word)].add(word)
    return [(path, new, sorted(olds)) for new, olds in sorted(by.items()) if len(olds) > 1]


def main(argv):
    antt = files("*/specs/**/*.antt", "*/proofs/**/*.antt")
    rust = files("*/src/**/*.rt")
    edits = files("*/must-fail/*.edit")
    texts = {}
    prose = sorted(glob.glob("tests/**/*.py", recursive=True) + glob.glob("docs/*.md") + ["README.md"])
    for path in antt + rust + edits + prose:
        with open(path, encoding="utf-8") as f:
            texts[path] = f.read()
    names, fields = declared([texts[p] for p in antt])
    turned = table(names, fields, [set(WORD.findall(texts[p])) for p in antt])
    met = []
    after = {}
    of_rust = re.compile(r"\b(requires|ensures|ghost)\b|≡|◌")
    for path, text in texts.items():
        if path.endswith(".antt"):
            after[path] = turn(text, turned)
            met += meetings(path, text, turned)
        elif path.endswith(".rt"):
            after[path] = turn_rust(text, turned)
            # A parameter, field or constant hides a word of its name; a function does not.
            code = set(re.findall(r"(?<!::)(?<!fn )\b\w+\b(?!\()(?=[^{]*)", re.sub(r"//[^\n]*|\b(?:pub )?use [^;]*;", "", text)))
            cited = {w for b, e in clauses(text) for w in WORD.findall(text[b:e]) if w in turned}
            met += [(path, turned[w], [w, "the code's " + turned[w]]) for w in sorted(cited) if turned[w] in code]
        elif path.endswith(".edit"):
            after[path] = turn_edit(text, turned, of_rust)
        elif path.endswith(".md"):
            after[path] = re.sub(r"`[^`\n]*`", lambda m: turn(m[0], turned), text)
        else:
            after[path] = re.sub(r"(?<![\w-])[a-z]\w*(?![\w-])", lambda m: turned.get(m[0], m[0]) if CAMEL.search(m[0]) else m[0], text)
    bad = [it for it in met if sum(word in names for word in it[2]) > 1]
    for path, new, olds in met:
        print(f"{path}: {', '.join(olds)} would be {new}")
    changed = [p for p in texts if after[p] != texts[p]]
    print(f"{len(turned)} names, {len(changed)} files, {len(met)} meetings, {len(bad)} of them of two names of ours")
    if bad or "--check" in argv:
        return 1 if bad else 0
    for path in changed:
        with open(path, "w", encoding="utf-8") as f:
            f.write(after[path])
    return 0


if __name__ == "__main__":
    sys.exit(main(sys.argv[1:]))
