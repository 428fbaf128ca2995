#!/bin/sh
# Refuses a growth of memory of each test of a crate by the toolchain itself: scripts/dev/try_growths.sh CRATE NUMBER..
#
# For each number, counted from 1, `rt try` makes the growth of this number fail in each test of the crate by itself. A test has
# to fail for want of memory then, or to pass: where it has no growth of this number, or goes on without it. A line for each
# number says how many did; where a test ends otherwise, it is told, and the script ends with 1. The toolchain compiles the
# tests anew for each number, which takes from 20 seconds to some minutes of a processor;
# scripts/dev/fail_each_allocation.sh --tests does the same to the built tests for every number. It isn't part of the gate.
set -u

if [ $# -lt 2 ]; then
    echo "usage: scripts/dev/try_growths.sh CRATE NUMBER.." >&2
    exit 2
fi
crate=$1
shift
cd "$(dirname "$(dirname "$(dirname "$(readlink -f "$0")")")")/crates/$crate" || exit 2
said=$(mktemp)
trap 'rm -f "$said"' EXIT
wrong=0
for number in "$@"; do
    rt try --test --fail-alloc "$number" >"$said" 2>&1
    passed=$(grep -c '^test .* \.\.\. ok$' "$said")
    failed=$(grep -c '^test .* \.\.\. FAILED$' "$said")
    wanting=$(grep -ciE '^ *error: .*(out of memory|AllocError|OutOfMemory|AllocFailed)' "$said")
    echo "$crate, growth $number refused: $wanting tests want memory, $passed pass"
    if [ $((passed + failed)) -eq 0 ] || [ "$wanting" -ne "$failed" ]; then
        cat "$said"
        wrong=1
    fi
done
exit $wrong
