#!/usr/bin/env bash
# How long `annotate` takes over long logs, and how much memory beside the catalog, beside a plain
# Rust program of the same job (peers/annotate.rs). One log has an address in each line, the other
# none. Both take each address as it is, and run by turns; the least processor time of each counts.
#
#     benches/annotate.sh [MEGABYTES [KALLSYMS]]
#
# 100 megabytes if nothing is given, and a listing of 150000 symbols, a third of them in modules.
set -eu
megabytes=${1:-100}
. "$(dirname "$0")/../tests/lib/program.sh"
build_proved latchsym
rustc --edition 2021 -C opt-level=3 -o "$work/peer" "$top/benches/peers/annotate.rs"
if [ $# -ge 2 ]; then
    cp "$2" "$work/kallsyms"
else
    awk 'BEGIN {
        print "ffffffff81000000 T _stext"
        for (i = 1; i < 100000; i++) printf "ffffffff%08x %s kernel_function_%d\n", 2164260864 + i * 176, (i % 3 ? "t" : "T"), i
        printf "ffffffff%08x B _end\n", 2164260864 + 100000 * 176
        for (m = 0; m < 50; m++)
            for (i = 0; i < 1000; i++) { j = i * 389 % 1000; printf "ffffffff%08x t function_%d\t[module_%d]\n", 3221225472 + m * 262144 + j * 160, j, m }
    }' >"$work/kallsyms"
fi

# an address of the listing in each line, some bytes behind its symbol
awk -v bytes="$megabytes"000000 '
    $1 ~ /^f/ && FILENAME == ARGV[1] { head[n] = substr($1, 1, 13); last[n++] = substr($1, 14) }
    END {
        srand(1)
        while (size < bytes) {
            i = int(rand() * n)
            line = sprintf("[%5d.%06d]  [<%s%s>] worker_thread: %d of %d pages, flags 0x%x, comm: kworker/%d:%d", size / 100000, rand() * 1000000, head[i], last[i], rand() * 100000, rand() * 100000, rand() * 65536, rand() * 8, rand() * 8)
            print line
            size += length(line) + 1
        }
    }' "$work/kallsyms" >"$work/addresses.log"
# and none
awk -v bytes="$megabytes"000000 'BEGIN {
    srand(1)
    while (size < bytes) {
        line = sprintf("[%5d.%06d] usb %d-%d: new high-speed USB device number %d using xhci_hcd, flags 0x%x, 0x%x of 0x%x", size / 100000, rand() * 1000000, rand() * 9, rand() * 9, rand() * 100, rand() * 65536, rand() * 65536, rand() * 65536)
        print line
        size += length(line) + 1
    }
}' >"$work/plain.log"
: >"$work/empty.log"

ours() { "$program" annotate --exact --kallsyms "$work/kallsyms" "$work/$1.log"; }
peer() { "$work/peer" "$work/kallsyms" "$work/$1.log"; }

# seconds NAME LOG: the processor time of a run, added to the file NAME
seconds() {
    { TIMEFORMAT='%U %S'; time "$1" "$2" >"$work/out.$1"; } 2>"$work/time"
    awk '{ print $1 + $2 }' "$work/time" >>"$work/times.$1"
}

# kilobytes LOG: the most memory that a run of ours holds
kilobytes() {
    /usr/bin/time -f %M "$program" annotate --kallsyms "$work/kallsyms" "$work/$1.log" 2>&1 >/dev/null
}

for log in addresses plain; do
    rm -f "$work"/times.*
    for _ in 1 2 3 4 5; do
        seconds ours "$log"
        seconds peer "$log"
    done
    cmp "$work/out.ours" "$work/out.peer"
    for name in ours peer; do sort -n "$work/times.$name" | head -n 1; done | paste -sd ' ' |
        awk -v log_name="$log" -v mb="$megabytes" '{ printf "%s, %d MB: %.2f s, plain Rust %.2f s, %.2f times\n", log_name, mb, $1, $2, $1 / $2 }'
    if command -v /usr/bin/time >/dev/null; then
        echo "$(kilobytes "$log") $(kilobytes empty)" |
            awk '{ printf "    memory: %.1f MB, %.1f MB beside the catalog\n", $1 / 1000, ($1 - $2) / 1000 }'
    fi
done
