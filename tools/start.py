"""Starts one of the commands: python3 start.py run|build|install|make_stream ARGUMENTS.

This file is written so that any Python reads it, and says in one line what is
needed where the present one is too old. Nothing is written beside the sources.
"""

import sys

NEEDED = (3, 8)
SHOWN = {"run": "run.sh", "build": "build.sh", "install": "install.sh", "make_stream": "make_stream.py"}
NOT_READY = 4


def start(name, arguments):
    if sys.version_info < NEEDED:
        words = "%s: needs Python %d.%d or newer; this is Python %d.%d\n"
        sys.stderr.write(words % ((SHOWN[name],) + NEEDED + tuple(sys.version_info[:2])))
        sys.exit(NOT_READY)
    sys.dont_write_bytecode = True
    import front

    sys.exit(front.run_command(name, SHOWN[name], arguments))


if __name__ == "__main__":
    start(sys.argv[1], sys.argv[2:])
