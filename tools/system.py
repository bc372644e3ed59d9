"""Reading and writing without losing a failure: by descriptor, every answer of the system looked at."""

import array
import errno
import fcntl
import os
import select
import stat
import termios

DONE, REFUSED, WRONG, FAILED, NOT_READY = 0, 1, 2, 3, 4
STANDARD = {0: "standard input", 1: "standard output", 2: "standard error"}
MOST_READ = 16 * 1024 * 1024  # bytes of one input: far more than any job has, and an end to /dev/zero
NAMES_NOTHING = {errno.ENOENT, errno.ENOTDIR, errno.ENAMETOOLONG, errno.ELOOP}


class Stop(Exception):
    """Ends the command with a status and a message."""

    def __init__(self, status, message):
        super().__init__(message)
        self.status = status


def shown(text, most=40):
    """Text of the user in a message: no control characters, and not all of 5,000."""
    plain = "".join(c if c.isprintable() else f"\\x{ord(c):02x}" for c in text[: most + 1])
    return plain if len(text) <= most else f"{plain[:most]}... ({len(text)} characters)"


def closed_descriptors():
    """Which of 0, 1 and 2 were closed at the start. They are taken, so that no file that is opened later gets their number."""
    closed = set()
    for number in STANDARD:
        try:
            os.fstat(number)
        except OSError:
            closed.add(number)
            os.open(os.devnull, os.O_RDWR)  # the lowest free number, which is this one
    return closed


def reason(error):
    return error.strerror or str(error)


class Streams:
    """Standard input, output and error of the command."""

    def __init__(self, name):
        self.name = name
        self.closed = closed_descriptors()

    def say(self, text):
        """A line on standard error. Where that fails too there is nobody left to tell: the status still says it."""
        if 2 in self.closed:
            return
        try:
            write_all(2, f"{self.name}: {text}\n".encode("utf-8", "backslashreplace"))
        except OSError:
            pass

    def show(self, data):
        """All of `data` on standard output, or Stop. It is closed at once, since some systems tell of a failure only then."""
        if not data:
            return
        try:
            if 1 in self.closed:
                raise OSError(errno.EBADF, os.strerror(errno.EBADF))
            write_all(1, data)
            os.close(1)
            os.open(os.devnull, os.O_WRONLY)
        except OSError as error:
            raise Stop(FAILED, f"cannot write standard output: {reason(error)}") from None

    def read(self, path):
        """All bytes of a file, or of standard input for `-`."""
        label = STANDARD[0] if path == "-" else shown(path, 200)
        try:
            if path != "-":
                return read_file(path, label)
            if 0 in self.closed:
                raise OSError(errno.EBADF, os.strerror(errno.EBADF))
            return read_all(0, label)
        except OSError as error:
            status = WRONG if error.errno in NAMES_NOTHING else FAILED
            raise Stop(status, f"cannot read {label}: {reason(error)}") from None

    def has_unread_input(self):
        """Whether a file or a pipe with bytes in it stands at standard input."""
        try:
            mode = os.fstat(0).st_mode
            if stat.S_ISREG(mode):
                return os.lseek(0, 0, os.SEEK_CUR) < os.fstat(0).st_size
            waiting = array.array("i", [0])
            return stat.S_ISFIFO(mode) and fcntl.ioctl(0, termios.FIONREAD, waiting) == 0 and waiting[0] > 0
        except OSError:
            return False


def write_all(descriptor, data):
    """Writes every byte; a pipe that is full and does not wait is waited for."""
    view = memoryview(data)
    while view:
        try:
            view = view[os.write(descriptor, view) :]
        except BlockingIOError:
            select.select([], [descriptor], [])


def read_all(descriptor, label):
    """Reads to the end; a pipe that is empty and does not wait is waited for."""
    parts, count = [], 0
    while True:
        try:
            part = os.read(descriptor, 65_536)
        except BlockingIOError:
            select.select([descriptor], [], [])
            continue
        if not part:
            return b"".join(parts)
        parts.append(part)
        count += len(part)
        if count > MOST_READ:
            raise Stop(WRONG, f"{label} has over {MOST_READ:,} bytes, more than any job")


def read_file(path, label):
    descriptor = os.open(path, os.O_RDONLY)
    try:
        return read_all(descriptor, label)
    finally:
        os.close(descriptor)
