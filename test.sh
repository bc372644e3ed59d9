#!/usr/bin/env bash
# The test command: every proof and must-fail edit, the layout of every file, the program as two compilers make it (`rt ci`),
# then the tests against the independent computation. The last line is `N passed, M failed`, the sum over the parts.
[ -n "${BASH_VERSION:-}" ] || { echo "test.sh: needs bash" >&2; exit 2; }
set -uo pipefail
cd "$(dirname "$0")" || exit 2
passed=0
failed=0
log=$(mktemp)
trap 'rm -f "$log"' EXIT

# part NAME COMMAND..: runs a command whose last line is `N passed, M failed` and adds it up. A command that ends in
# another way, or that says one thing by its last line and another by its exit status, counts as one failure.
part() {
    local name=$1
    shift
    echo "== $name"
    "$@" 2>&1 | tee "$log"
    local status=${PIPESTATUS[0]}
    local last
    last=$(tail -n 1 "$log")
    if [[ $last =~ ^([0-9]+)\ passed,\ ([0-9]+)\ failed(\ \(.*\))?$ ]]; then
        passed=$((passed + BASH_REMATCH[1]))
        failed=$((failed + BASH_REMATCH[2]))
        if [ "$status" -ne 0 ] && [ "${BASH_REMATCH[2]}" -eq 0 ]; then
            echo "$name: exit status $status"
            failed=$((failed + 1))
        fi
    else
        echo "$name: no count on its last line, exit status $status"
        failed=$((failed + 1))
    fi
}

# The merge gate of the toolchain: it also refuses a file that is not laid out. It passes though a must-fail edit cannot be
# applied ("N bad" on its line `rt: ok`); here that is a failure.
proofs() {
    local said status
    said=$(mktemp)
    rt ci 2>&1 | tee "$said"
    status=${PIPESTATUS[0]}
    if [ "$status" -eq 0 ] && grep -q '^rt: ok.*, [0-9]* bad' "$said" && ! grep -q '^rt: ok.*, 0 bad' "$said"; then
        echo "a must-fail edit cannot be applied"
        echo "0 passed, 1 failed"
        status=1
    fi
    rm -f "$said"
    return "$status"
}

part "proofs (rt ci)" proofs
part "tests against the independent computation" python3 tests/run.py
echo "$passed passed, $failed failed"
[ "$failed" -eq 0 ] && [ "$passed" -gt 0 ]
