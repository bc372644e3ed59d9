"""What the tests of the commands share: running them as a user does, and a copy of the repository whose `rt` is a stand-in."""

import os
import shutil
import subprocess
import sys
from functools import cache
from pathlib import Path

TOP = Path(__file__).resolve().parent.parent
CHAINRUN = TOP / "target" / "bin" / "chainrun"
SYSTEM_TOOLS = ("sh", "dirname", "readlink", "env", "cp", "mkdir", "cat", "printf")
PARTS = ("run.sh", "build.sh", "install.sh", "crates.txt", "tools", "examples", "include")
FEW_CRATES = ("refusals", "chainrun", "vougecress_c")

# Says what rt says and leaves what rt leaves. RT_CALLS gets the words of each call, RT_FAILS makes one fail.
STAND_IN = """#!/bin/sh
echo "$@" >> "$RT_CALLS"
[ -z "$RT_FAILS" ] || { echo "crate rules: modules loaded=0 checked=87"; echo "fn refusals::Refusal::number: not proved"; echo "logic=not-proved"; exit 1; }
echo "library std: modules loaded=0"
for name in rules refusals rules; do echo "crate $name: modules loaded=0 checked=9"; done
mkdir -p out
case $1 in
run)
    echo "crate chainrun: modules loaded=0 checked=9"
    cp "$RT_PROGRAM" out/chainrun ;;
lib)
    echo "crate vougecress_c: modules loaded=0 checked=9"
    cp "$RT_ARCHIVES/libvougecress_c.a" out/ ;;
esac
"""


def run(words, cwd=TOP, text=None, limit=600, **more):
    """Status, standard output and standard error of a command, which has this many seconds."""
    source = {} if "stdin" in more else {"input": text or b""}
    more.setdefault("stdout", subprocess.PIPE)
    more.setdefault("stderr", subprocess.PIPE)
    done = subprocess.run([str(word) for word in words], cwd=cwd, timeout=limit, **source, **more)
    return done.returncode, done.stdout, (done.stderr or b"").decode()


@cache
def built():
    """chainrun, built by the command that people use. On a new machine that proves it from nothing beside other builds: twenty minutes were seen."""
    status, _, said = run([TOP / "run.sh"], limit=3_600)
    if status != 0:
        raise AssertionError(said)
    return CHAINRUN


def links(folder, names=()):
    """A folder for PATH with the system's tools, Python and these further programs, and nothing else."""
    folder.mkdir(parents=True)
    (folder / "python3").symlink_to(os.path.realpath(sys.executable))
    for name in (*SYSTEM_TOOLS, *names):
        found = shutil.which(name)
        if found:
            (folder / name).symlink_to(os.path.realpath(found))
    return folder


class Copy:
    """A copy of what the commands need, in a folder with a space in its name, and a PATH in which `rt` is the stand-in."""

    def __init__(self, folder, rt=True, programs=("gcc", "as", "ld", "nm", "ar")):
        self.top = Path(folder) / "my copy"
        self.top.mkdir()
        for name in PARTS:
            source = TOP / name
            if source.is_dir():
                shutil.copytree(source, self.top / name, ignore=shutil.ignore_patterns("__pycache__"))
            else:
                shutil.copy(source, self.top / name)
        for crate in FEW_CRATES:
            shutil.copytree(TOP / "crates" / crate, self.top / "crates" / crate, ignore=shutil.ignore_patterns("out"))
        self.path = links(Path(folder) / "path", programs)
        self.calls = Path(folder) / "calls"
        self.calls.touch()
        if rt:
            (self.path / "rt").write_text(STAND_IN)
            (self.path / "rt").chmod(0o755)
        self.variables = {"PATH": str(self.path), "RT_CALLS": str(self.calls), "RT_FAILS": "", "RT_PROGRAM": str(built())}

    def run(self, *words, cwd=None, **variables):
        """Runs a script of the copy."""
        script, *arguments = words
        env = {**self.variables, **variables}
        return run([self.top / script, *arguments], cwd=cwd or self.top.parent, env=env)

    def count(self):
        """How often the stand-in was called."""
        return len(self.calls.read_text().splitlines())

    def tree(self):
        """Every file of the copy with its size and the time of its last change."""
        found = sorted(self.top.rglob("*"))
        return [(str(path), path.lstat().st_size, path.lstat().st_mtime_ns) for path in found]
