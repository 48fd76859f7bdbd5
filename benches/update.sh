#!/usr/bin/env bash
# Instructions that an update takes from its beginning to its last store, in tables of 7, 200, 1000
# and 65536 items, as callgrind counts them: the mean over erasures and insertions in random places,
# PAIRS of each (2000).
set -euo pipefail
pairs=${1:-2000}
. "$(dirname "$0")/../tests/lib/program.sh"
build_proved measures

# instructions PAIRS ITEMS: of the whole program; its output is kept
instructions() {
    valgrind --tool=callgrind --callgrind-out-file="$work/profile" "$program" stores "$2" "$1" >"$work/out.$1" 2>"$work/log" || return
    sed -n 's/^summary: //p; s/^totals: //p' "$work/profile" | tail -1
}

for items in 7 200 1000 65536; do
    without=$(instructions 0 "$items")
    with=$(instructions "$pairs" "$items")
    cat "$work/out.0" "$work/out.$pairs" | awk -v with="$with" -v without="$without" -v pairs="$pairs" '
        NR == 1 { stores = $6 }
        NR == 2 {
            printf "items %d: %.2f stores and %.1f instructions an update\n",
                $2, ($6 - stores) / (2 * pairs), (with - without) / (2 * pairs)
        }'
done
