"""Building as a user meets it: run.sh and build.sh on a copy whose `rt` is a stand-in, install.sh, and what is missing."""

import os
import re
import shutil
import stat
import subprocess
import sys
import tempfile
from pathlib import Path

import commands
import library
from commands import TOP, Copy, run
from test_reference_cases import PRINTED

VERSION = "3.0.0"


def copy_with_archive(folder, **more):
    library.built()
    copy = Copy(folder, **more)
    copy.variables["RT_ARCHIVES"] = str(TOP / "target" / "staticlib")
    return copy


def test_first_run_and_later_ones(t):
    """The first run proves, with a word on how long that takes and crate k of n; later ones are silent, quick and write nothing."""
    with tempfile.TemporaryDirectory() as folder:
        copy = Copy(folder)
        status, printed, said = copy.run("run.sh")
        lines = said.splitlines()
        t.check((status, printed) == (0, PRINTED), "the listing", (status, printed, said))
        total = re.match(r"run\.sh: proving and building chainrun from (\d+) crates .*minutes", lines[0])
        t.check(total is not None, "the first line says what happens and how long", lines)
        wanted = [f"run.sh: crate {k} of {total[1]}: {name}" for k, name in enumerate(("rules", "refusals", "chainrun"), 1)]
        t.check(lines[1:] == wanted, "crate k of n, each crate once", lines)
        before = copy.tree()
        times = []
        for _ in range(3):
            began = os.times()
            t.check(copy.run("run.sh") == (0, PRINTED, ""), "silent")
            now = os.times()
            times.append(now.children_user + now.children_system - began.children_user - began.children_system)
        t.check(min(times) < 0.7, "under a second, with the machine to itself", times)
        t.check(copy.tree() == before and copy.count() == 1, "nothing is written and rt is not asked", copy.count())


def edit_unseen(path):
    """An edit that keeps a file's size and times."""
    times = path.stat()
    path.write_text(path.read_text()[:-2] + "!\n")
    os.utime(path, ns=(times.st_atime_ns, times.st_mtime_ns))


def test_what_makes_it_stale(t):
    """Any edit below crates/, also one that keeps size and time, a new or lost file, another program in its place: proved anew."""
    with tempfile.TemporaryDirectory() as folder:
        copy = Copy(folder)
        copy.run("run.sh")
        changes = [
            ("an edit", lambda: edit_unseen(copy.top / "crates" / "refusals" / "src" / "lib.rt")),
            ("a must-fail edit", lambda: edit_unseen(next((copy.top / "crates" / "refusals" / "must-fail").iterdir()))),
            ("a new file", lambda: (copy.top / "crates" / "refusals" / "src" / "new.rt").write_text("")),
            ("a lost file", lambda: (copy.top / "crates" / "refusals" / "src" / "new.rt").unlink()),
            ("crates.txt", lambda: (copy.top / "crates.txt").write_text((copy.top / "crates.txt").read_text() + "# more\n")),
            ("another program", lambda: (copy.top / "target" / "bin" / "chainrun").write_bytes(b"#!/bin/sh\n")),
            ("no program", lambda: (copy.top / "target" / "bin" / "chainrun").unlink()),
            ("no target", lambda: shutil.rmtree(copy.top / "target")),
        ]
        for what, change in changes:
            change()
            before = copy.count()
            status, printed, said = copy.run("run.sh")
            t.check((status, printed) == (0, PRINTED) and copy.count() == before + 1, what, (status, said))
            t.check(copy.run("run.sh") == (0, PRINTED, "") and copy.count() == before + 1, f"{what}: once", copy.count())


def test_a_proof_that_fails(t):
    """Status 4 and the end of the log; the old program is not run on new sources."""
    with tempfile.TemporaryDirectory() as folder:
        copy = Copy(folder)
        status, printed, said = copy.run("run.sh", RT_FAILS="1")
        t.check((status, printed) == (4, b"") and "refusals::Refusal::number: not proved" in said, "a first proof", (status, printed, said))
        copy.run("run.sh")
        (copy.top / "crates" / "refusals" / "src" / "new.rt").write_text("")
        status, printed, said = copy.run("run.sh", RT_FAILS="1")
        t.check(
            (status, printed) == (4, b"") and "`rt run` in crates/chainrun failed (status 1)" in said,
            "a later one",
            (status, printed, said),
        )
        status, printed, _ = copy.run("run.sh")
        t.check((status, printed) == (0, PRINTED), "and again when it holds", status)


def test_without_rt(t):
    """What is missing, which version; what is built runs all the same."""
    with tempfile.TemporaryDirectory() as folder:
        copy = Copy(folder, rt=False)
        status, printed, said = copy.run("run.sh")
        t.check((status, printed) == (4, b"") and said.count("\n") == 1, "status 4 and one line", (status, said))
        words = ("no `rt` in PATH", "rattle-kit-13f", "once built, nothing else of the repository does")
        t.check(all(word in said for word in words), "what, which version, and what for", said)
        status, _, said = copy.run("build.sh")
        t.check(status == 4 and "no `rt` in PATH" in said and said.count("\n") == 1, "build.sh too", (status, said))
        status, _, said = copy.run("run.sh", "no such file")
        t.check(status == 2, "wrong use comes first", (status, said))
        (copy.top / "target" / "bin").mkdir(parents=True)
        shutil.copy(commands.built(), copy.top / "target" / "bin" / "chainrun")
        t.check(
            copy.run("run.sh") == (0, PRINTED, ""),
            "a program that rt built, and that is newer than the sources, runs",
            copy.run("run.sh"),
        )


def test_repository_that_cannot_be_written(t):
    """Built, it is used; not built, that is said. As nobody where the tests run as root, whom no mode stops."""
    with tempfile.TemporaryDirectory() as folder:
        os.chmod(folder, 0o755)
        copy = copy_with_archive(folder)
        copy.run("run.sh")
        copy.run("build.sh")
        for path in [copy.top, *copy.top.rglob("*")]:
            if not path.is_symlink():
                path.chmod(path.stat().st_mode & ~(stat.S_IWUSR | stat.S_IWGRP | stat.S_IWOTH) | stat.S_IRUSR | stat.S_IRGRP | stat.S_IROTH)
        drop = []
        if os.geteuid() == 0:
            drop = ["setpriv", "--reuid=65534", "--regid=65534", "--clear-groups"]
            path = "/usr/local/bin:/usr/bin:/bin"
            if run([*drop, "python3", "-c", "import dataclasses"], cwd="/", env={"PATH": path})[0] != 0:
                drop = []
            else:
                copy.variables["PATH"] = path
        for script, wanted in (("run.sh", PRINTED), ("build.sh", f"libvougecress {VERSION} is in {copy.top / 'build'}\n".encode())):
            answer = run([*drop, copy.top / script], cwd="/", env=copy.variables)
            t.check(answer == (0, wanted, ""), f"{script} is silent and right", answer)
        (copy.top / "crates").chmod(0o755)
        (copy.top / "crates" / "new").write_text("")
        (copy.top / "crates" / "new").chmod(0o644)
        status, printed, said = run([*drop, copy.top / "run.sh"], cwd="/", env=copy.variables)
        if drop:
            t.check(
                (status, printed) == (4, b"") and said.count("\n") == 1,
                "not built from the present sources",
                (status, said),
            )
        for path in [copy.top, *copy.top.rglob("*")]:
            if not path.is_symlink():
                path.chmod(path.stat().st_mode | stat.S_IWUSR)


def test_build_and_install(t):
    """build.sh: a line a step, the folder at the end, skipped when nothing changed. install.sh: what pkg-config and the loader find."""
    with tempfile.TemporaryDirectory() as folder:
        copy = copy_with_archive(folder)
        status, printed, said = copy.run("build.sh")
        build = copy.top / "build"
        last = f"libvougecress {VERSION} is in {build}\n".encode()
        t.check((status, printed) == (0, last), "the folder at the end", (status, printed, said))
        t.check("crate 1 of " in said and said.endswith("build.sh: linking libvougecress.so\n"), "a line a step", said)
        before, calls = copy.tree(), copy.count()
        t.check(copy.run("build.sh") == (0, last, "") and copy.tree() == before and copy.count() == calls, "skipped when nothing changed")
        (copy.top / "include" / "vougecress.h").write_text((TOP / "include" / "vougecress.h").read_text() + "/* more */\n")
        copy.run("build.sh")
        t.check("/* more */" in (build / "vougecress.h").read_text() and copy.count() == calls, "a changed header asks for no proof")
        t.check(copy.run("build.sh", "x")[0] == 2 and copy.run("install.sh", "--nonsense")[0] == 2, "wrong use")

        place = Path(folder) / "usr local"
        status, printed, said = copy.run("install.sh", PREFIX="usr local")
        t.check(
            (status, printed, said) == (0, f"libvougecress {VERSION} is in {place}\n".encode(), ""),
            "installed",
            (status, printed, said),
        )
        found = sorted(str(path.relative_to(place)) for path in place.rglob("*") if not path.is_dir())
        names = ["libvougecress.a", "libvougecress.so", "libvougecress.so.3", f"libvougecress.so.{VERSION}", "pkgconfig/vougecress.pc"]
        t.check(found == ["include/vougecress.h", *(f"lib/{name}" for name in names)], "what is installed", found)
        t.check(copy.run("install.sh", PREFIX="usr local")[0] == 0, "again, over itself")
        status, _, said = copy.run("install.sh", PREFIX="/opt/x", DESTDIR=str(Path(folder) / "stage"))
        pc = (Path(folder) / "stage" / "opt" / "x" / "lib" / "pkgconfig" / "vougecress.pc").read_text()
        t.check(
            status == 0 and "prefix=/opt/x\n" in pc and f"Version: {VERSION}\n" in pc,
            "DESTDIR stands before the copies alone",
            (said, pc),
        )
        t.check(copy.run("install.sh", PREFIX="")[0] == 2, "an empty PREFIX")
        status, _, said = copy.run("install.sh", PREFIX="/dev/null/x")
        t.check(status == 3 and said.count("\n") == 1, "a PREFIX that cannot be made", (status, said))
        links_and_runs(t, place)


def links_and_runs(t, place):
    """The example, compiled by the installed header and shared library."""
    program = place / "example"
    flags = ["-I", place / "include", "-L", place / "lib", "-lvougecress", f"-Wl,-rpath,{place / 'lib'}"]
    made = run(["gcc", "-Wall", "-Wextra", "-Werror", "-o", program, TOP / "examples" / "example.c", *flags])
    t.check(made[0] == 0, "compiled against the installed library", made)
    status, printed, said = run([program])
    t.check(status == 0 and b"close of the year: 1062000000" in printed, "and runs", (status, said))
    needed = subprocess.run(["readelf", "-d", str(program)], capture_output=True, text=True).stdout
    t.check("libvougecress.so.3]" in needed, "by its SONAME", needed)
    if shutil.which("pkg-config"):
        env = {**os.environ, "PKG_CONFIG_PATH": str(place / "lib" / "pkgconfig")}
        t.check(run(["pkg-config", "--modversion", "vougecress"], env=env)[1] == f"{VERSION}\n".encode(), "pkg-config knows the version")
        status, printed, said = run(["pkg-config", "--cflags", "--libs", "vougecress"], env=env)
        t.check(
            status == 0 and b"-lvougecress" in printed and b"usr\\ local/include" in printed,
            "and what to compile with",
            (printed, said),
        )


def test_version(t):
    """The header's macros and the function say the same."""
    header = (TOP / "include" / "vougecress.h").read_text()
    parts = [re.search(rf"#define VOUGECRESS_VERSION_{part} (\d+)", header)[1] for part in ("MAJOR", "MINOR", "PATCH")]
    major, minor, patch = (int(part) for part in parts)
    number = library.built().vougecress_version()
    t.check(number == 10_000 * major + 100 * minor + patch, "vougecress_version", number)
    t.check(".".join(parts) == VERSION, "the version that these tests know", parts)


def test_what_is_missing(t):
    """An old Python, none at all, no compiler: one line each; plain sh is enough."""
    with tempfile.TemporaryDirectory() as folder:
        copy = copy_with_archive(folder, programs=())
        status, printed, said = copy.run("build.sh")
        t.check(
            (status, printed) == (4, b"") and "there is no gcc and no cc in PATH" in said and said.count("\n") == 1,
            "no compiler",
            (status, said),
        )
        t.check(copy.count() == 0, "and nothing was proved before that was said", copy.count())
        status, _, said = copy.run("build.sh", CC="no-such-cc -O2")
        t.check(status == 4 and "CC names no-such-cc, which is not there" in said, "CC", (status, said))
        answer = run(["sh", copy.top / "run.sh"], env=copy.variables)
        t.check(answer[:2] == (0, PRINTED), "sh run.sh", answer)
        (copy.path / "python3").unlink()
        for script in ("run.sh", "build.sh", "install.sh"):
            status, _, said = copy.run(script)
            t.check(
                (status, said) == (4, f"{script}: needs Python 3.8 or newer; there is no python3 in PATH\n"),
                "no Python",
                (status, said),
            )
    for script, name in (("tools/start.py", "run"), ("tools/start.py", "build"), ("examples/make_stream.py", None)):
        words = ["x.py"] + ([name] if name else [])
        path = str(TOP / script)
        text = f"import sys, runpy; sys.version_info = (3, 7, 2); sys.argv = {words!r}; runpy.run_path({path!r}, run_name='__main__')"
        status, printed, said = run([sys.executable, "-B", "-c", text])
        wanted = "needs Python 3.8 or newer; this is Python 3.7\n"
        t.check(
            (status, printed) == (4, b"") and said.endswith(wanted) and said.count("\n") == 1,
            "an old Python",
            (script, status, said),
        )
