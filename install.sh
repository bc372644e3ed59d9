#!/bin/sh
# Copies the library for C, built if needed, to where others find it: PREFIX=FOLDER ./install.sh. ./install.sh --help says more.
top=$(dirname -- "$(readlink -f -- "$0")")
command -v python3 > /dev/null || { echo "install.sh: needs Python 3.8 or newer; there is no python3 in PATH" >&2; exit 4; }
exec python3 -B "$top/tools/start.py" install "$@" < /dev/null
