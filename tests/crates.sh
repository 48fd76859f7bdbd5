#!/usr/bin/env bash
# Runs the tests of the crates of tests/crates, which nothing proves: an order of one's own, plans and
# words, attempts under weak memory, points of a gate, devices that fail at each call, and others that
# neither a program in C nor a run of the program shows. With names of crates it runs theirs alone.
set -euo pipefail
cd "$(dirname "$0")/.."
. tests/lib/needs_kit.sh
if [ $# = 0 ]; then
    mapfile -t crates < <(grep -rl '#\[test\]' tests/crates | cut -d/ -f3 | sort -u)
    set -- "${crates[@]}"
fi
tests/lib/build.py test "$@"
