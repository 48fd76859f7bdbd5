#!/usr/bin/env bash
# Runs the program on a long trace and on long listings under limits of its memory (`ulimit -v`),
# from 6 MiB on, each twice the one before, until a limit is enough. Each run has to give what it
# gives without a limit, or nothing on standard output, `latchsym: refused 7` on standard error and
# status 1; of the steps of a trace and of what is recorded, which are written as they come, a beginning may
# stand there.
#
# LINES_OF_INPUT is the number of the trace's lines and of the listing's symbols.
set -eu
. "$(dirname "$0")/lib/program.sh"
build latchsym
lines=${LINES_OF_INPUT:-200000}

# is_begun ARGUMENT..: whether nothing was written, or of steps and of what is recorded a beginning
is_begun() {
    [ ! -s "$work/out" ] || [[ $2 = --steps || $1 = record ]] && cmp -s -n "$(stat -c %s "$work/out")" "$work/out" "$work/ample"
}

# limited NAME ARGUMENT..: the program with these arguments, at each limit
limited() {
    local name=$1 limit=6144 status=0 refused=0
    shift
    "$program" "$@" >"$work/ample"
    while :; do
        status=0
        (ulimit -v $limit && exec "$program" "$@") >"$work/out" 2>"$work/err" || status=$?
        if [ $status = 0 ]; then
            cmp -s "$work/out" "$work/ample" && [ ! -s "$work/err" ] && break
        elif [ $status = 1 ] && is_begun "$@" && [ "$(cat "$work/err")" = "latchsym: refused 7" ]; then
            refused=$((refused + 1))
            limit=$((2 * limit))
            continue
        fi
        echo "memory: $name of $lines lines in $limit KiB: status $status, $(head -c 200 "$work/err")"
        exit 1
    done
    [ $refused != 0 ] || { echo "memory: $name: no limit was too low"; exit 1; }
    echo "memory: $name of $lines lines: $(($(stat -c %s "$work/input") / 1048576)) MiB are served in $((limit / 1024)) MiB," \
        "and refused in $((limit / 2048)) MiB"
}

awk -v lines="$lines" 'BEGIN {
    print "latchtrace 1 halfopen 64"
    for (i = 1; i < lines; i++) {
        slot = int(i / 4) % 64 * 4096 + 4096
        if (i % 4 == 0) print (int(i / 256) % 2 ? "erase " slot : "insert " slot " " slot + 4096 " " i)
        else if (i % 4 == 1) print "write end"
        else if (i % 4 == 2) print "start 1 " slot
        else print "read 1 100"
    }
}' >"$work/input"
limited "a trace" trace "$work/input"
limited "the steps of a trace" trace --steps "$work/input"
awk -v lines="$lines" 'BEGIN {
    print "ffffffff80000000 T _stext"
    for (i = 2; i < lines; i++) printf "ffffffff%08x t some_function_of_the_kernel_%d\n", 2147483648 + 16 * (i % 100000000), i
    print "ffffffffffff0000 T _end"
}' >"$work/input"
: >"$work/none"
# (for one address the least limit is enough)
awk -v lines="$lines" 'BEGIN {
    for (i = 2; i < lines; i += 4) printf "0xffffffff%08x\n", 2147483656 + 16 * (i % 100000000)
}' >"$work/asked"
limited "a listing" lookup --modules "$work/none" --kallsyms "$work/input" --addresses "$work/asked"
echo '[<ffffffff80001008>]' >"$work/log"
limited "the symbols of a log" annotate --kallsyms "$work/input" "$work/log"
echo ' 1.000000: tracing_mark_write: latchsym' >"$work/events"
limited "a listing that is recorded" record --kallsyms "$work/input" "$work/events"
sed -i '1i latchhistory 1\nlisting 0.5' "$work/input"
echo '1.000000: [<ffffffff80001008>]' >"$work/log"
limited "the history of a log" annotate --history "$work/input" "$work/log"
