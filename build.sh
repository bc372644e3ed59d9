#!/bin/sh
# Proves and builds the library for C into build/, if the sources have changed: ./build.sh. ./build.sh --help says more.
top=$(dirname -- "$(readlink -f -- "$0")")
command -v python3 > /dev/null || { echo "build.sh: needs Python 3.8 or newer; there is no python3 in PATH" >&2; exit 4; }
exec python3 -B "$top/tools/start.py" build "$@" < /dev/null
