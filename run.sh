#!/bin/sh
# Runs a job of readable lines, the reference job without a name: ./run.sh [FILE]. ./run.sh --help says more.
# What it does is in tools/; here only Python and the repository are found, so that it works through a link and from any folder.
top=$(dirname -- "$(readlink -f -- "$0")")
command -v python3 > /dev/null || { echo "run.sh: needs Python 3.8 or newer; there is no python3 in PATH" >&2; exit 4; }
# Python does not start where standard input is a directory.
[ ! -d /dev/stdin ] || { echo "run.sh: cannot read standard input: Is a directory" >&2; exit 3; }
exec python3 -B "$top/tools/start.py" run "$@"
