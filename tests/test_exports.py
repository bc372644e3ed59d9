"""The static library promises what the crates for C promise: each of its functions has the parameters and clauses of its namesake and calls it.

Theorems name the contracts of the crates for C, since no crate can rest on a static library; so the two texts must be one.
"""

import re
from pathlib import Path

TOP = Path(__file__).resolve().parent.parent
CRATES = TOP / "crates"
EXPORT = re.compile(r'#\[unsafe\(no_mangle\)\]\npub extern "C" fn (vougecress_\w+)(.*?)^\{\n(.*?)^\}', re.DOTALL | re.MULTILINE)
IMPORT = re.compile(r"^ghost use (\S+?)(?:\.\{(.*?)\})?;", re.DOTALL | re.MULTILINE)
TYPES = re.compile(r"^use ([\w:]+)::(?:\{(.*?)\}|(\w+));", re.DOTALL | re.MULTILINE)


def module_of(path):
    """A file of src/ as a path of code."""
    crate = path.relative_to(CRATES).parts[0]
    return crate if path.stem == "lib" else f"{crate}::{path.stem}"


def words_of(path, text):
    """What each imported word of a file stands for: a definition of specs/, or a type of a crate."""
    found = {}
    for module, names in IMPORT.findall(text):
        for name in names.split(","):
            source, _, alias = name.strip().partition(" as ")
            found[alias or source] = f"{module}.{source}"
    for module, several, one in TYPES.findall(text):
        for name in (several or one).split(","):
            found[name.strip()] = f"{module}::{name.strip()}"
    for name in re.findall(r"^pub struct (\w+)", text, re.MULTILINE):
        found[name] = f"{module_of(path)}::{name}"
    return found


def exports(crate):
    """Name -> parameters and clauses on one line, the words in them with what they stand for, and the body."""
    found = {}
    for path in sorted((CRATES / crate / "src").glob("*.rt")):
        text = path.read_text()
        words = words_of(path, text)
        for name, promise, body in EXPORT.findall(text):
            promise = re.sub(r"\s+", " ", promise).strip()
            meant = {word: words[word] for word in re.findall(r"[A-Za-z_]\w*", promise) if word in words}
            found[name] = (promise, meant, re.sub(r"\s+", "", body), module_of(path))
    return found


def test_namesakes(t):
    library = exports("vougecress_c")
    inner = {}
    for crate in sorted(path.name for path in CRATES.iterdir()):
        if crate != "vougecress_c":
            inner.update(exports(crate))
    t.check(len(inner) > 0 and set(library) == set(inner), "every function for C is in the static library", sorted(set(library) ^ set(inner)))
    for name, (promise, meant, body, _) in library.items():
        wanted, wanted_meant, _, module = inner.get(name, ("", {}, "", ""))
        t.check(promise == wanted, f"{name}: the clauses of its namesake", (promise, wanted))
        t.check(meant == wanted_meant, f"{name}: the same definitions and types", (meant, wanted_meant))
        parameters = promise[1 : promise.index(") ->")] if ") ->" in promise else ""
        arguments = ",".join(re.findall(r"(\w+):", parameters))
        called = body.replace(",)", ")")
        t.check(called == f"{module}::{name}({arguments})", f"{name}: calls its namesake", (called, module, arguments))


def test_the_header_declares_them(t):
    header = re.sub(r"/\*.*?\*/", "", (TOP / "include" / "vougecress.h").read_text(), flags=re.DOTALL)
    declared = set(re.findall(r"\b(vougecress_\w+)\(", header))
    t.check(declared == set(exports("vougecress_c")), "the header's functions are the library's", sorted(declared ^ set(exports("vougecress_c"))))
