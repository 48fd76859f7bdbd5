#!/usr/bin/env bash
# The counted jobs of the program that measures: what they write is the same on each machine.
set -euo pipefail
. "$(dirname "$0")/lib/program.sh"

# gives EXPECTED ARGUMENT..: the program writes this text
gives() {
    local expected=$1 seen
    shift
    seen=$("$program" "$@" 2>"$work/times")
    [ "$seen" = "$expected" ] || { echo "measures: $*: $seen, not $expected" >&2; exit 1; }
}

build measures
data=$top/tests/crates/measures/data
gives "items 20 lookups 12288 found 6258 loads 237366 tags 65058" walk 20 3
gives "items 20 pairs 5 stores 399 words 11067153580527951182" stores 20 5
gives "items 20 rounds 5 events 536 notes 5 sequence 60" drive 20 5
gives "60" cw 20 40
gives "2034 21327" c 20 4096
"$program" drive 0 5 >"$work/seen" 2>&1
grep -qx 'refused 10' "$work/seen"
"$program" soak 0.2 >"$work/seen"
grep -q ' recalled [1-9].* wrong 0 ' "$work/seen"
cc -O2 -o "$work/walk" "$top/benches/walk.c"
"$program" words 20 >"$work/words"
"$work/walk" "$work/words" 3 >"$work/seen"
grep -q '^items 20 lookups 12288 found 6258 loads 237366 tags 65058 ' "$work/seen"

gives "modules 3 symbols 89 stray 1 found 100 sizes 73625280" build 3 90 100
gives "modules 2 hidden 1 empty 1 wraps 1 overlap 1 double 1 long 0 malformed 1
symbols 2 hidden 1 stray 2 long 0 malformed 1" read "$data/modules" "$data/kallsyms"
echo "measures: all counts are as they were"
