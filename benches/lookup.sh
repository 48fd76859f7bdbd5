#!/usr/bin/env bash
# How long `lookup` takes over large listings, and how much memory it holds at once, beside another
# program of the same job. Both run by turns; the least processor time of each counts.
#
#     benches/lookup.sh FOLDER [PEER]
#
# FOLDER has the listings modules.txt and kallsyms.txt, and addr.1, addr.1000 and addr.100000 with
# an address a line. PEER is a program that takes the two listings and a file of addresses. Our
# program takes the file by `--addresses`.
set -eu
folder=$(cd "$1" && pwd)
peer=${2:+$(realpath "$2")}
. "$(dirname "$0")/../tests/lib/program.sh"
build_proved latchsym

ours() { "$program" lookup --modules "$folder/modules.txt" --kallsyms "$folder/kallsyms.txt" --addresses "$folder/addr.$1"; }
theirs() { "$peer" "$folder/modules.txt" "$folder/kallsyms.txt" "$folder/addr.$1"; }

# seconds NAME COUNT: the processor time of a run, added to the file NAME
seconds() {
    { TIMEFORMAT='%U %S'; time "$1" "$2" >"$work/out.$1"; } 2>"$work/time"
    awk '{ print $1 + $2 }' "$work/time" >>"$work/times.$1"
}

listings=$(cat "$folder/modules.txt" "$folder/kallsyms.txt" | wc -c)
for count in 1 1000 100000; do
    rm -f "$work"/times.*
    for _ in 1 2 3 4 5; do
        seconds ours "$count"
        [ -z "$peer" ] || seconds theirs "$count"
    done
    [ -z "$peer" ] || cmp "$work/out.ours" "$work/out.theirs"
    least=$(sort -n "$work/times.ours" | head -n 1)
    echo "$count addresses: $least s${peer:+, the peer $(sort -n "$work/times.theirs" | head -n 1) s}"
done
if command -v /usr/bin/time >/dev/null; then
    kilobytes=$(/usr/bin/time -f %M "$program" lookup --modules "$folder/modules.txt" --kallsyms "$folder/kallsyms.txt" 1 2>&1 >/dev/null)
    awk -v kb="$kilobytes" -v bytes="$listings" 'BEGIN { printf "memory: %.0f MB for %.0f MB of listings, %.2f times\n", kb / 1000, bytes / 1e6, 1024 * kb / bytes }'
fi
