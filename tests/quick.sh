#!/usr/bin/env bash
# tests/quick.sh [NAME..]
# Runs what is named without a proof: a script of tests/ (annotate), a case of tests/cases, or the
# tests of a crate of tests/crates. What is there of builds and is not older than a source is used;
# else the program is built, in two minutes or, after an edit, in one.
#
# Without a name it runs all that needs no proved work, in some ten minutes on two processors. What is
# left out: the library for C as it is proved, with its packages, installing, a release, programs that
# must not compile, wrong bodies.
set -euo pipefail
cd "$(dirname "$0")/.."
. tests/lib/needs_kit.sh
if [ "$*" = --help ]; then
    sed -n '2,/^set /s/^# \{0,1\}//p' "$0"
    exit
fi
if [ $# -gt 0 ]; then
    cases=() crates=() scripts=()
    for name; do
        found=${#cases[@]}${#crates[@]}${#scripts[@]}
        [ ! -d "tests/cases/$name" ] || cases+=("$name")
        ! grep -qr '#\[test\]' "tests/crates/$name" 2>/dev/null || crates+=("$name")
        [ ! -f "tests/$name.sh" ] || scripts+=("$name")
        [ "$found" != "${#cases[@]}${#crates[@]}${#scripts[@]}" ] || {
            echo "quick.sh: $name is no case, no crate of tests and no script" >&2
            exit 2
        }
    done
    for script in "${scripts[@]}"; do "tests/$script.sh"; done
    [ ${#cases[@]} = 0 ] || tests/cases.sh "${cases[@]}"
    [ ${#crates[@]} = 0 ] || tests/crates.sh "${crates[@]}"
    exit
fi
times=$(mktemp)
trap 'sort -rn "$times"; rm -f "$times"' EXIT
# (cases.sh builds the program, so it comes first, beside what needs none)
tests/lib/lanes.py "$times" 'tests/cases.sh annotated_log_stays_as_it_is' tests/refused_calls.sh
tests/lib/lanes.py "$times" tests/crates.sh tests/first_change.sh tests/unproved_library.sh tests/random_logs.sh tests/{histories,recordings}.sh tests/random.sh tests/measures.sh \
    tests/{refusals,devices,memory,runs}.sh tests/interface.py \
    tests/{cases,traces,lookups,lines,json,annotate,follow,checks,address,symbols_alone,pages,versions}.sh
echo "all passed; nothing of it was proved"
