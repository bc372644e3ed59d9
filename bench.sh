#!/usr/bin/env bash
# The benchmark: builds the proved library and the C++ version, checks the reference cases on both, and prints their times
# by turns in one run with the ratio (below 1: the proved code is faster).
[ -n "${BASH_VERSION:-}" ] || { echo "bench.sh: needs bash" >&2; exit 2; }
set -euo pipefail
cd "$(dirname "$0")"
command -v g++ > /dev/null || { echo "bench.sh: needs g++" >&2; exit 4; }
./build.sh > /dev/null
g++ -std=c++17 -O3 -march=x86-64 -Wall -Wextra -o build/bench bench/bench.cpp bench/baseline.cpp build/libvougecress.a
build/bench check
build/bench
