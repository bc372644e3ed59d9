"""Is what people run built from the present sources, and if not, prove and build it with `rt`, showing how far it is."""

import fcntl
import hashlib
import os
import re
import shutil
import subprocess
import sys
from contextlib import contextmanager
from pathlib import Path

from system import NOT_READY, Stop

TOP = Path(__file__).resolve().parent.parent
TARGET = TOP / "target"
KIT = "rattle-kit-13f"  # the toolchain that the repository is proved with (`rt version`)
LAST_LINES = 15  # of a log that is shown after a failure


def digest_of(paths):
    """One number for the names and the bytes of these files."""
    whole = hashlib.sha256()
    for path in sorted(paths):
        whole.update(f"{path.relative_to(TOP)}\0".encode("utf-8", "surrogateescape"))
        whole.update(hashlib.sha256(path.read_bytes()).digest())
    return whole.hexdigest()


def sources():
    """Every file that a proof depends on; `rt` keeps its own in the crates' folders out/."""
    found = []
    for folder, inner, files in os.walk(TOP / "crates"):
        inner[:] = [name for name in inner if name != "out"]
        found += [Path(folder) / name for name in files]
    return [TOP / "crates.txt", *(path for path in found if path.is_file())]


def dependencies():
    """Each crate of crates.txt with those that it names."""
    rests_on = {}
    for line in (TOP / "crates.txt").read_text().splitlines():
        name, colon, others = line.split("#")[0].partition(":")
        if colon:
            rests_on[name.split()[0]] = others.split()
    return rests_on


def crates_below(crate):
    """This crate and all that it rests on."""
    rests_on = dependencies()
    found, waiting = set(), [crate]
    while waiting:
        name = waiting.pop()
        if name in rests_on and name not in found:
            found.add(name)
            waiting += rests_on[name]
    return found


class Product:
    """Files that are made from sources, and the stamp that says of which: a digest of the sources and one of the files."""

    def __init__(self, stamp, made_from, files):
        self.stamp, self.made_from, self.files = stamp, made_from, files

    def source(self):
        return digest_of(self.made_from())

    def is_fresh(self):
        try:
            told = self.stamp.read_text()
            return all(path.is_file() for path in self.files) and told == f"{self.source()} {digest_of(self.files)}\n"
        except OSError:
            return False

    def mark(self, source):
        """`source` is taken before the files are made, so that an edit meanwhile is not lost."""
        self.stamp.parent.mkdir(parents=True, exist_ok=True)
        self.stamp.write_text(f"{source} {digest_of(self.files)}\n")

    def is_newer(self):
        """Whether the files are younger than all that they are made from: all there is to go by without a stamp."""
        try:
            oldest = min(path.stat().st_mtime for path in self.files)
            return all(path.stat().st_mtime < oldest for path in self.made_from())
        except (OSError, ValueError):
            return False


PROGRAM = Product(TARGET / "bin" / "chainrun.sources", sources, [TARGET / "bin" / "chainrun"])
ARCHIVE = Product(TARGET / "staticlib" / ".sources", sources, [TARGET / "staticlib" / "libvougecress_c.a"])


def can_write():
    return os.access(TARGET if TARGET.exists() else TOP, os.W_OK)


def missing_rt():
    return (
        f"the Rattle toolchain is missing: there is no `rt` in PATH. This repository is proved with {KIT}. "
        "Only proving and building need it: once built, nothing else of the repository does"
    )


def built_program(say):
    """The path of chainrun, proved and built now if the sources have changed."""
    can_build = shutil.which("rt") and can_write()
    if not PROGRAM.is_fresh() and (can_build or not PROGRAM.is_newer()):
        build(say, PROGRAM, "chainrun", "run")
    return PROGRAM.files[0]


def built_archive(say):
    """The path of the archive with the functions for C, likewise."""
    if not ARCHIVE.is_fresh():
        build(say, ARCHIVE, "vougecress_c", "lib")
    return ARCHIVE.files[0]


@contextmanager
def alone(say, name):
    """What is done under a lock of this name is done once at a time in this repository."""
    TARGET.mkdir(exist_ok=True)
    with open(TARGET / name, "w") as lock:
        try:
            fcntl.flock(lock, fcntl.LOCK_EX | fcntl.LOCK_NB)
        except BlockingIOError:
            say("another build is under way here; waiting for it")
            fcntl.flock(lock, fcntl.LOCK_EX)
        yield


def build(say, product, crate, command):
    """Has `rt` prove and build this crate by this command, one build at a time in this repository."""
    if not shutil.which("rt"):
        raise Stop(NOT_READY, missing_rt())
    if not can_write():
        raise Stop(NOT_READY, f"{crate} is not built from the present sources, and {TOP} cannot be written")
    total = len(crates_below(crate))
    with alone(say, "build.lock"):
        if product.is_fresh():
            return
        say(f"proving and building {crate} from {total} crates (its parts); the first time that takes some minutes")
        source, progress = product.source(), Progress(say, total)
        folder, name = TOP / "crates" / crate, product.files[0].name
        run_rt(command, folder, name, progress)
        progress.end()
        put(folder / "out" / name, product.files[0])
        product.mark(source)


def put(made, place):
    """Copies a file to its place at once, so that nobody ever finds a part of it there."""
    place.parent.mkdir(parents=True, exist_ok=True)
    beside = place.with_name(f".{place.name}.new")
    shutil.copy(made, beside)
    os.replace(beside, place)


def run_rt(command, folder, name, progress):
    """Runs `rt` in a crate's folder and sees that it has made this file. With no input: `rt run` builds a program and runs it once."""
    log, made = TARGET / "build.log", folder / "out" / name
    made.unlink(missing_ok=True)
    with open(log, "wb") as whole:
        pipes = {"stdin": subprocess.DEVNULL, "stdout": subprocess.PIPE, "stderr": subprocess.STDOUT}
        with subprocess.Popen(["rt", command], cwd=folder, **pipes) as child:
            for line in child.stdout:
                whole.write(line)
                progress.take(line.decode("utf-8", "replace"))
    if child.returncode != 0 or not made.is_file():
        progress.end()
        last = log.read_text("utf-8", "replace").splitlines()[-LAST_LINES:]
        shown = "\n".join(f"  {line[:200]}" for line in last)
        where = folder.relative_to(TOP)
        raise Stop(NOT_READY, f"`rt {command}` in {where} failed (status {child.returncode}); the end of target/build.log:\n{shown}")


class Progress:
    """Crate k of n: one line that changes on a terminal, else a line a crate."""

    def __init__(self, say, total):
        self.say, self.total, self.seen = say, total, set()
        self.terminal = sys.stderr is not None and sys.stderr.isatty()

    def take(self, line):
        found = re.match(r"crate (\w+): modules ", line)
        name = found and found[1]
        if not name or name in self.seen:
            return
        self.seen.add(name)
        text = f"crate {len(self.seen)} of {self.total}: {name}"
        if self.terminal:
            sys.stderr.write(f"\r\033[K{text}")
            sys.stderr.flush()
        else:
            self.say(text)

    def end(self):
        if self.terminal and self.seen:
            sys.stderr.write("\r\033[K")
            sys.stderr.flush()

