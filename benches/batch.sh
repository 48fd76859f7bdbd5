#!/usr/bin/env bash
# How long one batch of many regions takes. A listing of symbols alone gives one module REGIONS
# regions, 60000 if none is given: `lookup` loads them in one update, and before that it does what
# `check` does, which reads the listing and builds the catalog. The least processor time of nine
# runs of each counts.
set -eu
regions=${1:-60000}
. "$(dirname "$0")/../tests/lib/program.sh"
build_proved latchsym

# no symbol reaches the next one
awk -v regions="$regions" 'BEGIN {
    print "1000 T _stext\n2000 T _end"
    for (i = 1; i <= regions; i++) { at = i * 1048577; printf "%x%08x t run\t[m]\n", at / 4294967296, at % 4294967296 }
}' >"$work/kallsyms"

whole() { "$program" lookup --modules-from-symbols --kallsyms "$work/kallsyms" 0x100001; }
built() { "$program" check --kallsyms "$work/kallsyms"; }

# seconds NAME: the processor time of a run, added to the file NAME
seconds() {
    { TIMEFORMAT='%U %S'; time "$1" >"$work/out.$1" 2>/dev/null; } 2>"$work/time"
    awk '{ print $1 + $2 }' "$work/time" >>"$work/times.$1"
}

for _ in 1 2 3 4 5 6 7 8 9; do
    seconds whole
    seconds built
done
grep -qx "modules 1 regions $regions" "$work/out.whole"
for name in whole built; do sort -n "$work/times.$name" | head -n 1; done | paste -sd ' ' |
    awk -v regions="$regions" '{ printf "%d regions of one module: %.0f ms, of these %.0f ms to read and build, %.0f ms for the batch\n", regions, 1000 * $1, 1000 * $2, 1000 * ($1 - $2) }'
