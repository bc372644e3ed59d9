"""The library for callers in C: built into build/ (build.sh), and copied from there to where others find it (install.sh)."""

import os
import re
import shutil
import subprocess
from pathlib import Path

from proving import TOP, Product, alone, built_archive, can_write, sources
from system import DONE, NOT_READY, WRONG, Stop, shown

BUILD = TOP / "build"
HEADER = TOP / "include" / "vougecress.h"
BUILD_HELP = """\
usage: ./build.sh     prove and build the library; at the end the folder is said, build/

It leaves libvougecress.a, libvougecress.so, vougecress.h and vougecress.pc (for pkg-config) there, and does nothing
where the sources have not changed. It needs the Rattle toolchain (rt) and a C compiler (gcc or cc; CC names another).
The first time takes some minutes. Exit status: 0 done; 2 wrong use; 3 writing failed; 4 something that is needed is
missing, or a proof failed.
"""
INSTALL_HELP = """\
usage: PREFIX=FOLDER ./install.sh

Builds the library if needed (./build.sh) and copies it to PREFIX (/usr/local): include/vougecress.h,
lib/libvougecress.a, lib/libvougecress.so with its version links, lib/pkgconfig/vougecress.pc. DESTDIR, if set, is put
before PREFIX for the copies alone, as packagers want it. Exit status as of ./build.sh.
"""
PKG_CONFIG = """\
prefix={prefix}
includedir={include}
libdir={lib}

Name: vougecress
Description: Panel draw, rotation and chained price index for services
Version: {version}
Cflags: -I${{includedir}}
Libs: -L${{libdir}} -lvougecress
"""


def version():
    """Major, minor and patch as the header has them."""
    text = HEADER.read_text()
    return [int(re.search(rf"#define VOUGECRESS_VERSION_{part} (\d+)", text)[1]) for part in ("MAJOR", "MINOR", "PATCH")]


def shared_names():
    """The shared library's file, and the two names that lead to it: the one programs ask for, and the one linkers do."""
    major, minor, patch = version()
    return [f"libvougecress.so.{major}.{minor}.{patch}", f"libvougecress.so.{major}", "libvougecress.so"]


def library():
    names = ["libvougecress.a", *shared_names(), "vougecress.h", "vougecress.pc"]
    made_from = [HEADER, Path(__file__).resolve()]
    return Product(BUILD / ".sources", lambda: sources() + made_from, [BUILD / name for name in names])


def compiler():
    """The command of the C compiler, in words."""
    chosen = os.environ.get("CC", "").split()
    for words in [chosen] if chosen else [["gcc"], ["cc"]]:
        if shutil.which(words[0]):
            return words
    wanted = f"CC names {shown(chosen[0])}, which is not there" if chosen else "there is no gcc and no cc in PATH"
    raise Stop(NOT_READY, f"needs a C compiler to link the shared library: {wanted}")


def no_arguments(streams, arguments, text):
    """Whether help was asked for and shown; any other argument is wrong."""
    if arguments and arguments[0] in ("--help", "-h"):
        streams.show(text.encode())
        return True
    if arguments:
        raise Stop(WRONG, f"takes no argument, and {shown(arguments[0])} was given; --help says more")
    return False


def make(say):
    """Brings build/ up to date."""
    whole = library()
    if whole.is_fresh():
        return
    words, source = compiler(), whole.source()
    archive = built_archive(say)
    if not can_write():
        raise Stop(NOT_READY, f"{BUILD} is not built from the present sources, and {TOP} cannot be written")
    with alone(say, "link.lock"):
        if not whole.is_fresh():
            lay(say, whole, archive, words, source)


def lay(say, whole, archive, words, source):
    """Lays the library's files into build/."""
    say("linking libvougecress.so")
    BUILD.mkdir(exist_ok=True)
    for old in [*BUILD.glob("libvougecress.*"), whole.stamp]:
        old.unlink(missing_ok=True)
    real, asked, linked = shared_names()
    shutil.copyfile(archive, BUILD / "libvougecress.a")
    shutil.copyfile(HEADER, BUILD / "vougecress.h")
    link(words, real, asked)
    (BUILD / asked).symlink_to(real)
    (BUILD / linked).symlink_to(asked)
    here = "${pcfiledir}"
    (BUILD / "vougecress.pc").write_text(pkg_config(here, here, here))
    whole.mark(source)


def link(words, real, asked):
    whole_archive = ["-Wl,--whole-archive", str(BUILD / "libvougecress.a"), "-Wl,--no-whole-archive"]
    done = subprocess.run(
        [*words, "-shared", "-o", str(BUILD / real), f"-Wl,-soname,{asked}", *whole_archive], capture_output=True, text=True
    )
    if done.returncode != 0:
        raise Stop(NOT_READY, f"{words[0]} could not link the shared library:\n{done.stderr.strip()}")


def pkg_config(prefix, include, lib):
    return PKG_CONFIG.format(prefix=prefix, include=include, lib=lib, version=".".join(map(str, version())))


def build(streams, arguments):
    if no_arguments(streams, arguments, BUILD_HELP):
        return DONE
    make(streams.say)
    streams.show(f"libvougecress {'.'.join(map(str, version()))} is in {BUILD}\n".encode("utf-8", "surrogateescape"))
    return DONE


def install(streams, arguments):
    if no_arguments(streams, arguments, INSTALL_HELP):
        return DONE
    prefix = os.environ.get("PREFIX", "/usr/local")
    if not prefix:
        raise Stop(WRONG, "PREFIX is empty")
    prefix = os.path.abspath(prefix)
    make(streams.say)
    root = Path(os.environ.get("DESTDIR", "") + prefix)
    real, asked, linked = shared_names()
    (root / "include").mkdir(parents=True, exist_ok=True)
    (root / "lib" / "pkgconfig").mkdir(parents=True, exist_ok=True)
    put(BUILD / "vougecress.h", root / "include" / "vougecress.h")
    put(BUILD / "libvougecress.a", root / "lib" / "libvougecress.a")
    put(BUILD / real, root / "lib" / real)
    for name, to in ((asked, real), (linked, asked)):
        (root / "lib" / name).unlink(missing_ok=True)
        (root / "lib" / name).symlink_to(to)
    text = pkg_config(prefix.replace(" ", "\\ "), "${prefix}/include", "${prefix}/lib")
    (root / "lib" / "pkgconfig" / "vougecress.pc").write_text(text)
    streams.show(f"libvougecress {'.'.join(map(str, version()))} is in {root}\n".encode("utf-8", "surrogateescape"))
    return DONE


def put(source, place):
    """A copy under a new name that then takes the place, so that a program that has the old one open keeps it."""
    fresh = place.with_name(f".{place.name}.new")
    shutil.copyfile(source, fresh)
    os.replace(fresh, place)
