#!/usr/bin/env bash
# The table for threads beside other programs of the same job: lookups and updates a second at 7,
# 200, 1000 and 65536 items, alone and beside a writer, lookups of which nine in ten lie in the range
# found last, and the same with one reader and the writer on one core. The programs take turns; each line has the median of REPEATS runs (7) of SECONDS
# (0.2), and the median of each run's ratio to the first program's of the same turn.
#
#     benches/table.sh [PEER ..]
#
# A PEER is a program that takes the arguments of measures and writes what it writes.
set -eu
repeats=${REPEATS:-7}
seconds=${SECONDS_A_RUN:-0.2}
. "$(dirname "$0")/../tests/lib/program.sh"
build_proved measures
programs=("$@" "$program")

# measure LABEL FIELD MODE ITEMS [READERS]: a line for each program
measure() {
    local label=$1 field=$2 turn peer
    shift 2
    for turn in $(seq "$repeats"); do
        for peer in "${programs[@]}"; do
            echo "$turn ${peer##*/} $(${pin:-} "$peer" "$@" "$seconds" | cut -d' ' -f"$field")"
        done
    done | awk -v label="$label" '
        function middle(list, count, sorted, i, j, x) {
            for (i = 1; i <= count; i++) {
                x = list[i]
                for (j = i - 1; j > 0 && sorted[j] > x; j--) sorted[j + 1] = sorted[j]
                sorted[j + 1] = x
            }
            return sorted[int((count + 1) / 2)]
        }
        NR == 1 { first = $2 }
        !($2 in place) { place[$2] = ++programs; name[programs] = $2 }
        $2 == first { base = $3 }
        { count[$2]++; rate[$2, count[$2]] = $3; ratio[$2, count[$2]] = base > 0 ? $3 / base : 0 }
        END {
            for (p = 1; p <= programs; p++) {
                n = count[name[p]]
                for (i = 1; i <= n; i++) { rates[i] = rate[name[p], i]; ratios[i] = ratio[name[p], i] }
                printf "%-28s %-14s %8.3f million a second, %.2f\n", label, name[p], middle(rates, n) / 1e6, middle(ratios, n)
            }
        }'
}

for items in 7 200 1000 65536; do
    measure "$items items, lookups" 1 r "$items"
    measure "$items items, 9 in 10 again" 1 h "$items"
    measure "$items items, updates" 2 w "$items"
    for readers in 1 2 3; do
        measure "$items items, $readers readers" 1 rw "$items" "$readers"
    done
done
pin='taskset -c 0'
measure "1000 items, one core" 1 rw 1000 1
pin=
for items in 1000 65536; do
    echo "$items items: $("$program" r "$items" "$seconds" | cut -d' ' -f3) bytes of memory an item"
done
