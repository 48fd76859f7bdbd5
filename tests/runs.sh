#!/usr/bin/env bash
# Runs the scripts of examples/scripts/ and compares what is written with the lines beside them;
# runs scripts of several writers beside many readers, whose last line says that nothing is wrong;
# and tries what may be wrong with the command line and the files.
set -eu
. "$(dirname "$0")/lib/program.sh"
build latchsym
cd "$top/examples/scripts"

basic=(--modules ../listings/basic.modules --kallsyms ../listings/basic.kallsyms)
regions=(--modules ../listings/regions.modules --kallsyms ../listings/regions.kallsyms --regions ../listings/regions.regions)

# run ARGUMENT..: the output in out and err; the run has to succeed, and standard error to have the
# lines of $notes
notes=
run() {
    local status=0
    "$program" run "$@" >"$work/out" 2>"$work/err" || status=$?
    [ $status = 0 ] && [ "$(cat "$work/err")" = "$notes" ] || fail "run $*: status $status, $(cat "$work/err")"
}

for _ in 1 2 3 4 5 6 7 8 9 10; do
    run "${basic[@]}" --readers 1 loads.script
    cmp -s "$work/out" loads.before || cmp -s "$work/out" loads.after || fail "loads: other lines than those beside it"
done
run "${basic[@]}" --readers 1 - <loads.script
cmp -s "$work/out" loads.before || cmp -s "$work/out" loads.after || fail "a script from the standard input: other lines"
run "${regions[@]}" --readers 1 init.script
cmp -s "$work/out" init.expected || fail "init: other lines than those beside it"

# ends LINE ARGUMENT..: the run ends with this line
ends() {
    local line=$1
    shift
    run "$@"
    [ "$(tail -n 1 "$work/out")" = "$line" ] || fail "run $*: $(tail -n 1 "$work/out")"
}

# so many modules of a page each, the first at 0x1000
modules() { awk -v n="$1" 'BEGIN { for (i = 1; i <= n; i++) printf "m%d 4096 0 - Live 0x%x\n", i, i * 4096 }'; }

modules 4 >"$work/four"
awk 'BEGIN {
    for (i = 0; i < 50; i++) for (w = 1; w <= 4; w++) {
        printf "load %d m%d\nunload %d m%d\n", w, w, w, w
        for (r = 1; r <= 4; r++) printf "look %d 0x%x\n", r, (1 + (r + w + i) % 4) * 4096 + 8
    }
}' >"$work/four.script"
notes="latchsym: note: $work/four: no symbol lies in a listed module; are both listings of one boot?"
ends "checked 800 wrong 0 seq 800 gen 400" --modules "$work/four" --kallsyms /dev/null --readers 4 "$work/four.script"

# all writers load and unload the same modules, so some of their changes are refused
modules 8 >"$work/eight"
awk 'BEGIN {
    for (i = 0; i < 100000; i++)
        if (i % 3 == 0) printf "%s %d m%d\n", int(i / 48) % 2 ? "unload" : "load", 1 + i % 8, 1 + int(i / 16) % 8
        else printf "look %d 0x%x\n", 1 + i % 64, (1 + i % 9) * 4096
}' >"$work/eight.script"
notes="latchsym: note: $work/eight: no symbol lies in a listed module; are both listings of one boot?"
run --modules "$work/eight" --kallsyms /dev/null --readers 64 "$work/eight.script"
notes=
tail -n 1 "$work/out" | grep -q '^checked 66666 wrong 0 seq ' || fail "eight writers beside 64 readers: $(tail -n 1 "$work/out")"
# each change is refused or makes one generation, thousands are accepted, and no reader's generations
# fall
awk '
    $1 == "refused" { refused++; next }
    $1 == "checked" { generation = $NF + 0; next }
    { if ($NF + 0 < last[$1]) fell = 1; last[$1] = $NF + 0 }
    END { exit !(generation >= 2000 && refused + generation == 33334 && !fell) }
' "$work/out" || fail "eight writers beside 64 readers: too few generations, or they do not add up, or fall"

# eight writers of three modules each, of which one has an init region: what becomes of the 5000
# changes of each follows from its own modules, whatever the others do meanwhile
awk -v folder="$work" '
    function may(change, n) {
        if (n == 0) return 11
        if (change == "load") { if (state[n]) return 12; state[n] = n % 3 ? 1 : 2; return 0 }
        if (!state[n]) return 13
        if (change == "init" && state[n] == 1) return 17
        state[n] = change == "init"
        return 0
    }
    BEGIN {
        srand(1)
        print "latchregions 1" >(folder "/own.regions")
        for (n = 1; n <= 24; n++) {
            printf "m%d 4096 0 - Live 0x%x\n", n, 4096 * n >(folder "/own")
            if (n % 3 == 0) printf "m%d core 0x%x 4096\nm%d init 0x%x 4096\n", n, 4096 * n, n, 4096 * n + 1048576 >(folder "/own.regions")
        }
        for (i = 0; i < 40000; i++) {
            w = i % 8
            n = int(16 * rand()) ? 3 * w + 1 + int(3 * rand()) : 0
            change = substr("load  load  unloadunloadinit  ", 1 + 6 * int(5 * rand()), 6)
            sub(/ +$/, "", change)
            printf "%s %d m%d\nlook %d 0x%x\n", change, w + 1, n, 1 + i % 2, 4096 * (1 + i % 24) + 1048576 * (int(i / 24) % 2) >(folder "/own.script")
            if (why = may(change, n)) refused[w] = refused[w] "refused " w + 1 " " why " m" n "\n"
            else accepted++
        }
        for (w = 0; w < 8; w++) printf "%s", refused[w] >(folder "/own.expected")
        printf "checked 40000 wrong 0 seq %d gen %d\n", 2 * accepted, accepted >(folder "/own.expected")
        exit accepted < 10000
    }' || fail "changes of own modules: too few are accepted"
notes="latchsym: note: $work/own: no symbol lies in a listed module; are both listings of one boot?"
run --modules "$work/own" --kallsyms /dev/null --regions "$work/own.regions" --readers 2 "$work/own.script"
notes=
grep -v '^[0-9]' "$work/out" | cmp -s - "$work/own.expected" || fail "changes of own modules: other lines"

# a module that is loaded is found, in one run of twenty at least: each has a writer with one change
# and two readers with 5000 addresses
{ echo 'load 1 ext4'; for i in {1..5000}; do echo 'look 1 0xffffffffc0000018'; echo 'look 2 0xffffffffc0000018'; done; } >"$work/found.script"
found=0
for turn in {1..20}; do
    run "${basic[@]}" --readers 2 "$work/found.script"
    if grep -q -- '^[12] 0xffffffffc0000018 -> ext4_a+0x8/0x30 \[ext4\] gen 1$' "$work/out"; then
        found=1
        break
    fi
done
[ $found = 1 ] || fail "a module that is loaded is never found"

# the names of changes and the addresses of lookups come in the order of the script, by writer and
# by reader
printf 'unload 8 b\nlook 2 7\nunload 1 a\n\nload 8 c\n# last\nlook 1 0x8\nlook 2 9' >"$work/order"
run "${basic[@]}" --readers 3 "$work/order"
printf 'refused 1 11 a\nrefused 8 11 b\nrefused 8 11 c\n1 0x8 -> - gen 0\n2 0x7 -> - gen 0\n2 0x9 -> - gen 0\nchecked 3 wrong 0 seq 0 gen 0\n' >"$work/ordered"
cmp -s "$work/out" "$work/ordered" || fail "order: other lines"

# the kernel itself is loaded and unloaded as a module
printf 'load 1 -\nload 1 -\nunload 1 -\n' >"$work/kernel.script"
run "${basic[@]}" --readers 1 "$work/kernel.script"
printf 'refused 1 12 -\nchecked 0 wrong 0 seq 4 gen 2\n' | cmp -s - "$work/out" || fail "load 1 -: other lines"

# between other names there is no kernel where no symbol has one of them
sed 's/_end$/_einittext/' ../listings/basic.kallsyms >"$work/einittext"
notes="latchsym: note: $work/einittext: has no symbol _end; try --kernel _stext _einittext"
run --modules ../listings/basic.modules --kallsyms "$work/einittext" --readers 1 "$work/kernel.script"
notes=
printf 'refused 1 11 -\nrefused 1 11 -\nrefused 1 11 -\nchecked 0 wrong 0 seq 0 gen 0\n' | cmp -s - "$work/out" || fail "load 1 - without _end: other lines"
run --modules ../listings/basic.modules --kallsyms "$work/einittext" --kernel _stext _einittext --readers 1 "$work/kernel.script"
printf 'refused 1 12 -\nchecked 0 wrong 0 seq 4 gen 2\n' | cmp -s - "$work/out" || fail "--kernel of run: other lines"

# what is noted of listings, in their order
notes=$(sed 's,note: ,&../listings/,' ../listings/hidden.notes)
ends "checked 0 wrong 0 seq 0 gen 0" --modules ../listings/hidden.modules --kallsyms ../listings/hidden.kallsyms --readers 1 /dev/null
notes=

for readers in 1 64 0x40; do
    ends "checked 0 wrong 0 seq 0 gen 0" "${basic[@]}" --readers $readers /dev/null
done

# refused STATUS LINE ARGUMENT..: nothing on standard output, this line on standard error (any,
# where it is empty), and this status
refused() {
    local want=$1 line=$2 status=0
    shift 2
    "$program" run "$@" >"$work/out" 2>"$work/err" || status=$?
    [ $status = "$want" ] && [ ! -s "$work/out" ] && [ -s "$work/err" ] || fail "run $*: status $status in place of $want"
    [ -z "$line" ] || [ "$(cat "$work/err")" = "latchsym: $line" ] || fail "run $*: $(cat "$work/err")"
}
for word in 0 65 x 64x '' 18446744073709551617; do
    refused 2 "bad number of readers $word" "${basic[@]}" --readers "$word" loads.script
done
refused 2 "--kernel takes two names of symbols, and its END is 0x10" "${basic[@]}" --kernel _stext 0x10 --readers 1 loads.script
refused 2 "" "${basic[@]}" loads.script
refused 2 "" "${basic[@]}" --readers 1
refused 2 "" "${basic[@]}" --readers 1 --readers 2 loads.script
refused 2 "" --readers 1 --modules ../listings/basic.modules loads.script
printf 'load 1 ext4\n\n# two\nlook 2 0\n' >"$work/bad.script"
refused 1 "$work/bad.script: line 4 is not understood" "${basic[@]}" --readers 1 "$work/bad.script"
run "${basic[@]}" --readers 2 "$work/bad.script"
printf 'load 9 ext4\n' >"$work/ninth.script"
refused 1 "$work/ninth.script: line 1 is not understood" "${basic[@]}" --readers 1 "$work/ninth.script"
refused 1 "no_such: cannot be read" --modules no_such --kallsyms ../listings/basic.kallsyms --readers 1 no_other
refused 1 "no_such: cannot be read" --modules ../listings/basic.modules --kallsyms no_such --readers 1 no_other
refused 1 "no_such: cannot be read" "${basic[@]}" --readers 1 no_such
refused 1 "no_such: cannot be read" "${basic[@]}" --regions no_such --readers 1 no_other
printf 'latchregions 2\n' >"$work/other.regions"
refused 1 "$work/other.regions: line 1 is not understood" "${basic[@]}" --regions "$work/other.regions" --readers 1 no_such
modules 65537 >"$work/many"
refused 1 "refused 10" --modules "$work/many" --kallsyms /dev/null --readers 1 /dev/null
if [ -e /dev/full ]; then
    status=0
    "$program" run "${basic[@]}" --readers 1 loads.script >/dev/full 2>"$work/err" || status=$?
    [ $status = 1 ] && [ "$(cat "$work/err")" = "latchsym: cannot write" ] || fail "a full device is not reported"
fi
status=0
"$program" run "${basic[@]}" --readers 1 loads.script >&- 2>"$work/err" || status=$?
[ $status = 1 ] && [ "$(cat "$work/err")" = "latchsym: cannot write" ] || fail "a closed standard output is not reported"
[ $failed = 1 ] || echo "runs: $(ls ./*.script | wc -l) scripts, four writers beside four readers, and eight beside 64"
exit $failed
