"""tests/run.py itself: a copy of it runs small test files in a folder of its own."""

import shutil
import subprocess
import sys
import tempfile
from pathlib import Path

RUNNER = Path(__file__).resolve().parent / "run.py"


def runs(files, *arguments):
    """Exit status and printed lines of the runner over these files."""
    with tempfile.TemporaryDirectory() as folder:
        shutil.copy(RUNNER, folder)
        for name, text in files.items():
            Path(folder, name).write_text(text)
        command = [sys.executable, "-B", str(Path(folder, "run.py")), *arguments]
        done = subprocess.run(command, capture_output=True, text=True, timeout=60)
        return done.returncode, done.stdout.splitlines()


GOOD = "def test_good(t):\n    t.check(t.count(1, 2) == 1, 'short')\n    t.check(t.seed == 1, 'seed')\n"
BAD = "def test_bad(t):\n    t.check(1 > 2, 'one over two', repeat=[4, 5, 6])\n"
EMPTY = "def test_empty(t):\n    pass\n"
RAISING = "def test_raising(t):\n    t.check(True, 'fine')\n    raise SystemExit(0)\n"
BROKEN = "import no_such_module\n"


def test_exit_and_count(t):
    status, lines = runs({"test_a.py": GOOD})
    t.check((status, lines[-1]) == (0, "2 passed, 0 failed"), "all pass", lines)
    status, lines = runs({"test_a.py": GOOD, "test_b.py": BAD})
    t.check((status, lines[-1]) == (1, "2 passed, 1 failed"), "one fails", lines)
    status, lines = runs({})
    t.check((status, lines[-1]) == (1, "0 passed, 0 failed"), "nothing to run is a failure", lines)
    status, lines = runs({"test_a.py": GOOD}, "no_such_test")
    t.check((status, lines[-1]) == (1, "0 passed, 0 failed"), "no such test", lines)


def test_what_counts_as_failed(t):
    status, lines = runs({"test_a.py": GOOD, "test_b.py": EMPTY})
    t.check((status, lines[-1]) == (1, "2 passed, 1 failed"), "a test without a check", lines)
    status, lines = runs({"test_a.py": GOOD, "test_b.py": RAISING})
    t.check((status, lines[-1]) == (1, "3 passed, 1 failed"), "a test that leaves", lines)
    t.check(any("SystemExit" in line for line in lines), "its traceback", lines)
    status, lines = runs({"test_a.py": BROKEN, "test_b.py": GOOD})
    t.check((status, lines[-1]) == (1, "2 passed, 1 failed"), "a file that raises", lines)
    t.check(any("ModuleNotFoundError" in line for line in lines), "its traceback", lines)


def test_options(t):
    _, lines = runs({"test_a.py": GOOD, "test_b.py": BAD}, "test_bad", "--seed", "77")
    t.check(lines[-1] == "0 passed, 1 failed", "only the named test", lines)
    said = "\n".join(lines)
    t.check("one over two" in said and "seed 77" in said and "[4, 5, 6]" in said, "how to repeat it", lines)
    status, lines = runs({"test_a.py": GOOD}, "--long")
    t.check((status, lines[-1]) == (1, "1 passed, 1 failed"), "--long takes the long count", lines)
    many = "def test_many(t):\n    for i in range(99):\n        t.check(False, f'number {i}')\n"
    status, lines = runs({"test_a.py": many})
    t.check(lines[-1] == "0 passed, 99 failed" and len(lines) < 40, "a flood is counted, not printed", lines)


def test_side_by_side(t):
    """However many files run at a time, all are counted; a process that ends without an answer is a failure."""
    files = {"test_a.py": GOOD, "test_b.py": BAD, "test_c.py": GOOD}
    for jobs in ("1", "2", "9"):
        status, lines = runs(files, "--jobs", jobs)
        t.check((status, lines[-1]) == (1, "4 passed, 1 failed"), f"{jobs} at a time", lines)
        t.check(sum("checks, " in line for line in lines) == 3, "a line for each test", lines)
    status, lines = runs({"test_a.py": "import os\n\ndef test_gone(t):\n    os._exit(0)\n"}, "--jobs", "2")
    t.check((status, lines[-1]) == (1, "0 passed, 1 failed"), "a process that is gone", lines)
