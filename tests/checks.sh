#!/usr/bin/env bash
# Checks the listings of examples/listings/: each note that a lookup writes of them is written, and
# then the counts of the lookup, where both have the same bounds of the kernel; tries the statuses, more regions than a table has, and the faults.
set -euo pipefail
. "$(dirname "$0")/lib/program.sh"
build latchsym
cd "$top/examples/listings"

# checked STATUS ARGUMENT..: the check ends so, and says nothing on standard error
checked() {
    local want=$1 status=0
    shift
    "$program" check "$@" >"$work/out" 2>"$work/err" || status=$?
    [ $status = "$want" ] && [ ! -s "$work/err" ] || fail "check $*: status $status, $(cat "$work/err")"
}

# writes LINES: these lines were written
writes() {
    printf "$1" | cmp -s - "$work/out" || fail "other lines: $(cat "$work/out")"
}

for modules in *.modules; do
    name=${modules%.modules}
    regions=()
    [ ! -e "$name.regions" ] || regions=(--regions "$name.regions")
    kept=$(sed -n 's/^symbols \([0-9]*\) .*/\1/p' "$name.expected")
    status=0
    [ "$kept" != 0 ] || status=1
    checked $status --modules "$modules" --kallsyms "$name.kallsyms" "${regions[@]}" --kernel _stext _end
    grep -v '^0x' "$name.expected" | cmp -s - <(grep -v '^latchsym: note: ' "$work/out") || fail "$name: other counts"
    # what a lookup notes of a listing is among what is written of it
    if [ -e "$name.notes" ] && grep -Fxvf "$work/out" "$name.notes"; then
        fail "$name: a note is missing"
    fi
done

# without bounds the kernel has its usual regions, of which nothing is missed
checked 0 --modules no_end.modules --kallsyms no_end.kallsyms
"$program" lookup --modules no_end.modules --kallsyms no_end.kallsyms --kernel _stext _etext 0 |
    tail -n +2 | cmp -s - "$work/out" || fail "usual regions: $(cat "$work/out")"
checked 0 --kallsyms basic.kallsyms
writes 'modules 1 regions 1\nsymbols 5 hidden 0 stray 1 long 0 malformed 0\n'
checked 1 --modules empty.modules --kallsyms empty.kallsyms
writes 'modules 0 hidden 0 empty 0 wraps 0 overlap 0 double 0 long 0 malformed 0\nsymbols 0 hidden 0 stray 0 long 0 malformed 0\n'

# without a listing of modules
checked 1 --kallsyms empty.kallsyms
writes 'latchsym: note: empty.kallsyms: is empty\nmodules 0 regions 0\nsymbols 0 hidden 0 stray 0 long 0 malformed 0\n'

# all notes on one listing; a bound that is named and missed
printf '\037\213\r\n' >"$work/both"
checked 1 --kallsyms "$work/both"
writes "latchsym: note: $work/both: is compressed by gzip; unpack it first\nlatchsym: note: $work/both: lines end in CR LF\nlatchsym: note: $work/both: no line is of the form of /proc/kallsyms\nmodules 0 regions 0\nsymbols 0 hidden 0 stray 0 long 0 malformed 1\n"
checked 0 --kallsyms basic.kallsyms --kernel _stext nowhere
head -n 1 "$work/out" | cmp -s - <(echo 'latchsym: note: basic.kallsyms: has no symbol nowhere') || fail "a bound that is missed"

# more regions than a table has nodes
awk 'BEGIN { for (i = 1; i <= 70000; i++) printf "%x t f%d\t[m%d]\n", i * 4096, i, i }' >"$work/many"
checked 0 --kallsyms "$work/many"
writes 'modules 70000 regions 70000\nsymbols 70000 hidden 0 stray 0 long 0 malformed 0\n'

# faulty STATUS LINE ARGUMENT..: the check fails so, with nothing on standard output
faulty() {
    local want=$1 line=$2 status=0
    shift 2
    "$program" check "$@" >"$work/out" 2>"$work/err" || status=$?
    [ $status = "$want" ] && [ ! -s "$work/out" ] && [ "$(cat "$work/err")" = "$line" ] || fail "check $*: status $status, $(cat "$work/err")"
}
if [ -r /proc/kallsyms ]; then
    "$program" check >"$work/alone" 2>&1 || true
    "$program" check --kallsyms /proc/kallsyms 2>&1 | cmp -s - "$work/alone" || fail "no options: $(head -n 2 "$work/alone")"
fi
faulty 1 'latchsym: nowhere: cannot be read (No such file or directory)' --kallsyms nowhere
faulty 1 'latchsym: nowhere: cannot be read (No such file or directory)' --modules nowhere --kallsyms basic.kallsyms
faulty 1 "latchsym: basic.modules: line 1 is not understood" --modules basic.modules --kallsyms basic.kallsyms --regions basic.modules
faulty 2 'latchsym: --regions needs --modules' --kallsyms basic.kallsyms --regions regions.regions
faulty 2 'latchsym: --kernel takes two names of symbols, and its END is 0x1' --kallsyms basic.kallsyms --kernel _stext 0x1
if [ -e /dev/full ]; then
    status=0
    "$program" check --kallsyms basic.kallsyms >/dev/full 2>"$work/err" || status=$?
    [ $status = 1 ] && [ "$(cat "$work/err")" = 'latchsym: cannot write (No space left on device)' ] || fail "a full device: status $status"
fi
[ $failed = 1 ] || echo "checks: $(ls ./*.modules | wc -l) listings"
exit $failed
