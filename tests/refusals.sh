#!/usr/bin/env bash
# Refuses each request for memory of a run of the program in turn, until a run meets no refusal.
# Each run has to give what it gives with ample memory, or nothing on standard output, `latchsym:
# refused 7` on standard error and status 1.
# The steps of a trace are written as they are done, the lines of a log that is followed before its
# listings are read again, and a recording block by block, so a beginning of them may stand there then.
# A run of a script may also go on where memory was refused for a change, and say so of that change
# (`refused 1 7 ext4`).
#
# The program is linked to the C library dynamically, so a library in front of it can refuse a
# request. Needs a C compiler.
set -eu
. "$(dirname "$0")/lib/program.sh"
build latchsym
cc -O1 -shared -fPIC -o "$work/refuse.so" "$top/tests/refusals/refuse.c"

# run NAME COMMAND..: the output of the command in NAME.out and NAME.err, its status in NAME.status
run() {
    local name=$1 status=0
    shift
    "$@" >"$work/$name.out" 2>"$work/$name.err" || status=$?
    echo "$status" >"$work/$name.status"
}

same() { cmp -s "$work/$1.out" "$work/$2.out" && cmp -s "$work/$1.err" "$work/$2.err" && cmp -s "$work/$1.status" "$work/$2.status"; }

: >"$work/refused.out"
echo "latchsym: refused 7" >"$work/refused.err"
echo 1 >"$work/refused.status"

# midway ARGUMENT..: whether these ask for steps, or follow a log, or record, and the run `once` was
# refused behind some of them
midway() {
    [[ "${1-} ${2-}" = "trace --steps" || "${1-} ${2-}" = "annotate --follow" || "${1-}" = record ]] && cmp -s "$work/once.err" "$work/refused.err" &&
        cmp -s "$work/once.status" "$work/refused.status" &&
        cmp -s -n "$(stat -c %s "$work/once.out")" "$work/once.out" "$work/ample.out"
}

# try ARGUMENT..: the program with these arguments, each of its requests refused in turn
try() {
    local request=0 refused=0
    run ample "$program" "$@"
    while :; do
        request=$((request + 1))
        rm -f "$work/mark"
        run once env REFUSED_REQUEST=$request REFUSAL_MARK="$work/mark" LD_PRELOAD="$work/refuse.so" "$program" "$@"
        if same once refused || midway "$@"; then
            refused=$((refused + 1))
        elif ! same once ample; then
            echo "refusals: latchsym $*: request $request refused, and then:"
            cat "$work/once.out" "$work/once.err" "$work/once.status"
            exit 1
        fi
        [ -e "$work/mark" ] || break
    done
    if [ "$refused" = 0 ] || ! same once ample; then
        echo "refusals: latchsym $*: no request was refused, or the last run differs"
        exit 1
    fi
    echo "refusals: latchsym $*: $((request - 1)) requests, $refused runs refused as a whole"
}

# run_script: the script loads.script, each request refused in turn. Its threads come to a request
# in any order, so a run is refused as a whole, or writes the line of each refused change, of the
# lookup and of the totals.
run_script() {
    local request=0 refused=0 arguments=(run --modules basic.modules --kallsyms basic.kallsyms --readers 1 ../scripts/loads.script)
    while :; do
        request=$((request + 1))
        rm -f "$work/mark"
        run once env REFUSED_REQUEST=$request REFUSAL_MARK="$work/mark" LD_PRELOAD="$work/refuse.so" "$program" "${arguments[@]}"
        if same once refused; then
            refused=$((refused + 1))
        elif [ "$(cat "$work/once.status")" != 0 ] || [ -s "$work/once.err" ] || ! tr '\n' '/' <"$work/once.out" | grep -Eqx "$outcomes"; then
            echo "refusals: latchsym ${arguments[*]}: request $request refused, and then:"
            cat "$work/once.out" "$work/once.err" "$work/once.status"
            exit 1
        fi
        [ -e "$work/mark" ] || break
    done
    if [ "$refused" = 0 ] || same once refused; then
        echo "refusals: latchsym ${arguments[*]}: no request was refused, or the last run was"
        exit 1
    fi
    echo "refusals: latchsym ${arguments[*]}: $((request - 1)) requests, $refused runs refused as a whole"
}
outcomes='(refused 1 (7|12) ext4/){0,2}refused 1 (7|11) nfs/1 0xffffffffc0000018 -> (- gen 0|ext4_a\+0x8/0x30 \[ext4\] gen 1)/checked 1 wrong 0 seq (0 gen 0|2 gen 1)/'

cd "$top/examples/traces"
for trace in torn_item both_ends batch_replaces_an_item wide_last_sequence; do
    "$program" trace $trace.trace >"$work/lines"
    cmp "$work/lines" $trace.expected
    try trace $trace.trace
    try trace --steps $trace.trace
done
cd "$top/examples/listings"
try lookup --modules basic.modules --kallsyms basic.kallsyms 0xffffffffc0000018 0xffffffff81000108
try lookup --modules regions.modules --kallsyms regions.kallsyms --regions regions.regions 0xffffffffc0600104
try lookup --modules regions.modules --kallsyms regions.kallsyms --regions empty.modules 0
try lookup --modules basic.modules --kallsyms basic.kallsyms 0xffffffffc0000018 --addresses basic.addresses --kernel _stext _end
try annotate --kallsyms basic.kallsyms ../logs/x86_oops.log
try annotate --modules regions.modules --kallsyms regions.kallsyms --regions regions.regions ../logs/x86_oops.log
try annotate --follow --kallsyms basic.kallsyms ../logs/x86_oops.log
for told in 'tracing_mark_write: latchsym' 'module_load: ext4' 'module_free: ext4' 'module_load: none'; do
    printf '  sh-1 [000] ..... 1.500000: %s\n' "$told"
done >"$work/events"
try record --kallsyms basic.kallsyms "$work/events"
try check --kallsyms basic.kallsyms
try check --modules regions.modules --kallsyms regions.kallsyms --regions regions.regions
try address --modules basic.modules --kallsyms basic.kallsyms ext4_a+0x8 nothing -:do_one
run_script
cd "$top/examples/traces"
try --help
try trace cut_short.trace
try trace no_such.trace
