#!/usr/bin/env python3
"""The test runner.

    python3 tests/run.py [--seed N] [--long] [--jobs N] [NAME...]

Runs the functions named test_* of all files tests/test_*.py, or those whose file
or function name contains a NAME. Each gets a context `t`: `t.check` counts a
pass or prints a failure with what is needed to repeat it, `t.seed` is the seed
and `t.count(short, long)` says how many cases to take. The last line is
`N passed, M failed`; the exit status is 1 if anything failed or nothing passed.
Files run side by side, as many as there are processors, each in a process of its
own whose lines are printed when it ends; with a NAME one after the other.
"""

import argparse
import contextlib
import importlib.util
import io
import os
import sys
import time
import traceback
from concurrent.futures import ProcessPoolExecutor, as_completed
from pathlib import Path

HERE = Path(__file__).resolve().parent
# The longest files: the first of them builds the library while the others, which need nothing built, go on.
FIRST = ("test_build", "test_definitions", "test_independent")
MOST_SHOWN = 10  # failures printed for one test; all are counted
MOST_PRINTED = 3_000  # characters of a case's data


class Context:
    """Counts the checks of all tests."""

    def __init__(self, seed, long):
        self.seed = seed
        self.long = long
        self.passed = 0
        self.failed = 0
        self.test = ""
        self.shown = 0

    def begin(self, test):
        """The checks that follow belong to this test."""
        self.test = test
        self.shown = 0

    def count(self, short, long):
        """How many cases: the first in a default run, the second with --long."""
        return long if self.long else short

    def check(self, condition, what, repeat=None):
        """Count a pass, or print a failure; `repeat` is the case or data it happened with."""
        if condition:
            self.passed += 1
            return
        self.fail(what, "" if repeat is None else describe(repeat))

    def fail(self, what, details):
        """Count a failure and print it, unless this test has printed enough."""
        self.failed += 1
        self.shown += 1
        if self.shown <= MOST_SHOWN:
            print(f"FAILED {self.test}: {what}\n  seed {self.seed}\n{details}".rstrip(), flush=True)
        elif self.shown == MOST_SHOWN + 1:
            print(f"FAILED {self.test}: more failures, not printed", flush=True)


def describe(repeat):
    """A case by its generator and number, anything else by its value."""
    data = repeat
    head = ""
    if hasattr(repeat, "generator"):
        data = repeat.data
        head = (
            f"  generator {repeat.generator}, case {repeat.number}: {repeat.what}\n"
            f"  again: generate.again({repeat.generator!r}, {repeat.seed}, {repeat.number})\n"
        )
    text = repr(data)
    if len(text) > MOST_PRINTED:
        text = f"{text[:MOST_PRINTED]}... ({len(text)} characters in all)"
    return f"{head}  data {text}"


def load(path):
    """A test file as a module."""
    spec = importlib.util.spec_from_file_location(path.stem, path)
    module = importlib.util.module_from_spec(spec)
    spec.loader.exec_module(module)
    return module


def tests_of(path, names):
    """The test functions of a file that were asked for, in the order of the file."""
    module = load(path)
    for name, function in vars(module).items():
        if not name.startswith("test_") or not callable(function):
            continue
        label = f"{path.stem}.{name}"
        if not names or any(wanted in label for wanted in names):
            yield label, function


def run_file(context, path, names):
    """Run one file; whatever it raises is a failure with its traceback."""
    context.begin(path.stem)
    try:
        tests = list(tests_of(path, names))
    except BaseException as error:
        stop_if_interrupted(error)
        context.fail("the file raised", traceback.format_exc())
        return
    for label, function in tests:
        context.begin(label)
        before = time.perf_counter()
        checks = context.passed + context.failed
        try:
            function(context)
        except BaseException as error:
            stop_if_interrupted(error)
            context.fail("raised", traceback.format_exc())
        made = context.passed + context.failed - checks
        if made == 0:
            context.fail("checked nothing", "")
        print(f"{label}: {made} checks, {time.perf_counter() - before:.1f} s", flush=True)


def stop_if_interrupted(error):
    """An interrupt ends the run; all else counts as a failure."""
    if isinstance(error, KeyboardInterrupt):
        raise error


def one_after_the_other(paths, options):
    """The count of passed and failed checks of these files, whose lines are printed as they come."""
    context = Context(options.seed, options.long)
    for path in paths:
        run_file(context, path, options.names)
    return context.passed, context.failed


def by_itself(path, options):
    """One file in this process: its count, and what it printed."""
    sys.path.insert(0, str(HERE))
    sys.dont_write_bytecode = True
    printed = io.StringIO()
    with contextlib.redirect_stdout(printed):
        count = one_after_the_other([path], options)
    return count, printed.getvalue()


def side_by_side(paths, options):
    """The same of several files at a time. A file whose process ends without an answer is a failure."""
    passed = failed = 0
    order = sorted(paths, key=lambda path: (FIRST.index(path.stem) if path.stem in FIRST else len(FIRST), path.stem))
    for path, answer in answers(order, options):
        try:
            count, printed = answer.result()
        except Exception:
            count, printed = (0, 1), f"FAILED {path.stem}: its process ended\n{traceback.format_exc()}"
        print(printed, end="", flush=True)
        passed, failed = passed + count[0], failed + count[1]
    return passed, failed


def answers(paths, options):
    """Each file with its answer, as they end."""
    with ProcessPoolExecutor(max_workers=options.jobs) as pool:
        asked = {pool.submit(by_itself, path, options): path for path in paths}
        for answer in as_completed(asked):
            yield asked[answer], answer


def main():
    """Run what was asked for and print the count."""
    parser = argparse.ArgumentParser(description="Run the tests of tests/test_*.py.")
    parser.add_argument("--seed", type=int, default=1, help="seed of all generators (1)")
    parser.add_argument("--long", action="store_true", help="many more cases")
    parser.add_argument("--jobs", type=int, help="files at a time (as many as there are processors; with a NAME 1)")
    parser.add_argument("names", nargs="*", metavar="NAME", help="part of a file or test name")
    options = parser.parse_args()
    options.jobs = max(1, options.jobs or (1 if options.names else os.cpu_count() or 1))
    sys.path.insert(0, str(HERE))
    sys.dont_write_bytecode = True  # leave no files behind
    paths = sorted(HERE.glob("test_*.py"))
    passed, failed = (one_after_the_other if options.jobs == 1 else side_by_side)(paths, options)
    print(f"{passed} passed, {failed} failed")
    return 1 if failed or not passed else 0


if __name__ == "__main__":
    sys.exit(main())
