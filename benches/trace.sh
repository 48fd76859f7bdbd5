#!/usr/bin/env bash
# How long the program takes over a long trace, and how much memory, beside a plain Rust program of
# the same job (peers/trace.rs). Both run by turns; the least processor time of each counts. LINES
# lines, a million if none is given.
set -eu
lines=${1:-1000000}
. "$(dirname "$0")/../tests/lib/program.sh"
build_proved latchsym
rustc --edition 2021 -C opt-level=3 -o "$work/peer" "$top/benches/peers/trace.rs"

# a small table, one update in every thousand lines, and lookups of 4 readers
awk -v lines="$lines" 'BEGIN {
    print "latchtrace 1 halfopen 4"
    for (i = 0; i < 2; i++) { printf "insert 0x%x 0x%x %d\nwrite end\n", 4096 * i, 4096 * i + 2048, i; }
    for (n = 5; n + 2 <= lines; n += 2) {
        if (n % 1000 == 5) {
            flip = !flip
            print (flip ? "insert 0x10000 0x20000 9" : "erase 0x10000")
            print "write end"
            n += 2
        }
        printf "start %d 0x%x\nread %d 100\n", n % 4, (n * 97) % 12288, n % 4
    }
    while (n++ < lines) print "# end"
}' >"$work/long.trace"

# measure NAME COMMAND..: adds a line `seconds kilobytes` to the file NAME
measure() {
    local name=$1
    shift
    { TIMEFORMAT='%U %S'; time "$@" >"$work/out.$name"; } 2>"$work/time"
    local kilobytes
    kilobytes=$( (ulimit -c 0; command -v /usr/bin/time >/dev/null && /usr/bin/time -f %M "$@" 2>&1 >/dev/null) || echo 0)
    awk -v kb="$kilobytes" '{ print $1 + $2, kb }' "$work/time" >>"$work/times.$name"
}

for _ in 1 2 3 4 5; do
    measure ours "$program" trace "$work/long.trace"
    measure peer "$work/peer" "$work/long.trace"
done
# the peer keeps a chain, so its lookups visit other nodes
for name in ours peer; do sed 's/ loads [0-9]*//' "$work/out.$name" >"$work/text.$name"; done
cmp "$work/text.ours" "$work/text.peer"
for name in ours peer; do sort -n "$work/times.$name" | head -1; done | awk -v lines="$lines" '
    NR == 1 { ours = $1; memory = $2 }
    NR == 2 {
        printf "trace of %d lines: %.2f s and %d MB, plain Rust %.2f s and %d MB, %.2f times\n",
            lines, ours, memory / 1000, $1, $2 / 1000, ours / $1
    }'
