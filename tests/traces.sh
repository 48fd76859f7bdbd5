#!/usr/bin/env bash
# Runs each trace of examples/traces/ and compares what it writes with the lines beside it, or with
# the line that reports its fault. Among the lines a `*` stands for a number that depends on the
# tree's shape. How many steps an update takes is left to the program, so the lookups of every_stop
# are compared with the table before the second flip up to some stop, and with the table after it
# from there on.
#
# What `--steps` writes is compared byte for byte with the file of steps beside the trace, and line by
# line with a plain slow replay (tests/steps/replay.py), which also goes over random traces (RUNS). The
# files of steps follow the program's trees: where these change, `tests/traces.sh --write` writes them
# again where the replay agrees, and docs/watch/examples.py puts them into the page. With EMULATED,
# what takes an emulator minutes is smaller or left out.
set -eu
. "$(dirname "$0")/lib/program.sh"
build latchsym
cd "$top/examples/traces"

# agree WANTED GOT: whether the lines are the wanted ones, a `*` among their words standing for any
# number
agree() {
    awk 'NR == FNR { want[FNR] = $0; lines = FNR; next }
        {
            if (split(want[FNR], w, " ") != split($0, g, " ")) exit 1
            for (i in w) if (w[i] != g[i] && !(w[i] == "*" && g[i] ~ /^[0-9]+$/)) exit 1
            seen = FNR
        }
        END { if (seen != lines) exit 1 }' "$1" "$2"
}

# every_stop_agrees GOT: three lookups at each stop, all at their first attempt: up to some stop the
# old table, then the new. Three stores of the item and a root, at least, come before the second flip.
every_stop_agrees() {
    awk '/^seq 4 gen 2$/ { ended = 1; next }
        !/ tries 1$/ { exit 1 }
        / gen 1 / { if (new) exit 1; old++ }
        / gen 2 / { new = 1 }
        { count++; tag[$2] = $4; loads = $8 }
        loads < 3 || loads > (new ? 11 : 7) || tag["0x3000"] != 9 || tag["0x5000"] ~ /[0-9]/ || $2 == "0x1000" && $4 != (new ? 7 : "-") { exit 1 }
        END { if (!new || !ended || count % 3 || old < 3 * 6) exit 1 }' "$1"
}

for trace in *.trace; do
    name=${trace%.trace}
    status=0
    "$program" trace "$trace" >"$work/out" 2>"$work/err" || status=$?
    if [ -e "$name.fault" ]; then
        [ $status = 1 ] && [ ! -s "$work/out" ] && cmp -s "$work/err" "$name.fault" || fail "$name: another fault, or none"
    else
        [ $status = 0 ] && [ ! -s "$work/err" ] || fail "$name: $(cat "$work/err")"
        if [ "$name" = every_stop ]; then
            every_stop_agrees "$work/out" || fail "$name: not the old table up to the second flip and the new one from it on"
        else
            agree "$name.expected" "$work/out" || fail "$name: other lines than $name.expected"
        fi
    fi
done

# the steps of the same traces: as expected, and as the replay has them; a fault is the same
for trace in *.trace; do
    name=${trace%.trace}
    status=0
    "$program" trace --steps "$trace" >"$work/out" 2>"$work/err" || status=$?
    if [ -e "$name.fault" ]; then
        [ $status = 1 ] && [ ! -s "$work/out" ] && cmp -s "$work/err" "$name.fault" || fail "--steps $name: another fault, or none"
        continue
    fi
    [ $status = 0 ] && [ ! -s "$work/err" ] || fail "--steps $name: $(cat "$work/err")"
    python3 "$top/tests/steps/replay.py" "$trace" "$work/out" || { failed=1; continue; }
    [ "${1:-}" != --write ] || cp "$work/out" "$name.steps"
    cmp -s "$work/out" "$name.steps" || fail "--steps $name: other lines than $name.steps"
done
python3 "$top/tests/steps/random_traces.py" "$program" "${RUNS:-300}" || failed=1

# traced TRACE: what is written and said of the trace that printf makes of this, and the status
traced() {
    printf "$1" >"$work/trace"
    status=0
    "$program" trace "$work/trace" >"$work/out" 2>"$work/err" || status=$?
}

# fails LINE TRACE: the trace fails with this line on standard error alone, and its steps do too
fails() {
    local option
    for option in '' --steps; do
        printf "$2" >"$work/trace"
        status=0
        # shellcheck disable=SC2086
        "$program" trace $option "$work/trace" >"$work/out" 2>"$work/err" || status=$?
        [ $status = 1 ] && [ ! -s "$work/out" ] && [ "$(cat "$work/err")" = "latchsym: $1" ] ||
            fail "trace $option of $2: status $status, $(cat "$work/err")"
    done
}

# the first bad line is named
while read -r line trace; do
    fails "$work/trace: line $line is not understood" "$trace"
done <<'END'
2 latchtrace 1 halfopen 4\nwrite 0
3 latchtrace 1 halfopen 4\n# x\nstart  1 0x10
3 latchtrace 1 halfopen 4\nstart 1 0x10\nread 1 4294967296
2 latchtrace 1 halfopen 4\nstart 1 18446744073709551616
2 latchtrace 1 halfopen 4\nerase 0x00000000000000001
1 latchtrace 1 halfopen 4294967296
3 latchtrace 1 halfopen 4\n\nerase 1 \nwrite 0\n
2 latchtrace 1 halfopen 4\nstart 1 0x10\r\n
1 \nlatchtrace 1 halfopen 4\n
3 latchtrace 1 halfopen 4\n# x\nbatch 0 0
3 latchtrace 2 halfopen 4\nbatch 0 0\nbatch 0 1 1 2
2 latchtrace 3 halfopen 4\nbatch 1 0 1 2
1 latchtrace 4 halfopen 4
3 latchtrace 1 halfopen 1\nstart 1 16\nread 1\n
END
# tables that may not be opened, and the last sequences at which one may
for header in '1 halfopen 4294967295\nstart 1 0x10\n' '1 halfopen 65537' '1 closed 4 3' '1 closed 4 4294967296' \
    '2 halfopen 4 4294967296' '3 halfopen 4 18446744073709551615' '3 halfopen 4 4294967295' '3 halfopen 65537' \
    '3 halfopen 0' '1 closed 0\n'; do
    fails 'refused 10' "latchtrace $header"
done
narrow='seq 4294967294 gen 2147483647'
wide='seq 18446744073709551614 gen 9223372036854775807'
while read -r line header; do
    traced "latchtrace $header"
    [ $status = 0 ] && [ "$(cat "$work/out")" = "${!line}" ] || fail "latchtrace $header: $(cat "$work/out" "$work/err")"
done <<'END'
narrow 1 halfopen 65536 4294967294
narrow 2 closed 65536 4294967294
wide 3 closed 65536 18446744073709551614
END
# a line has at most 4096 bytes
comment=$(printf '#%04095d' 0)
traced "latchtrace 1 halfopen 4\n$comment\nstart 1 0x10\nread 1 3\n"
printf '1 0x10 -> - gen 0 loads 3 tries 1\nseq 0 gen 0\n' | cmp -s - "$work/out" || fail "a comment of 4096 bytes: $(cat "$work/err")"
fails "$work/trace: line 2 is not understood" "latchtrace 1 halfopen 4\n$comment-\nstart 1 0x10\nread 1 3\n"

# a trace that is cut after any of its bytes is run, or its last line is bad; cut within its header it
# may also open at a sequence that is not allowed
for name in full_where_full last_sequence busy_and_idle batch_of_the_third_version; do
    grep -v '^#' $name.trace >"$work/whole"
    for end in $(seq 0 $((${EMULATED:+9} + 1)) $(($(stat -c %s "$work/whole") - 1))); do
        head -c "$end" "$work/whole" >"$work/trace"
        line=$(($(wc -l <"$work/trace") + 1))
        status=0
        "$program" trace "$work/trace" >"$work/out" 2>"$work/err" || status=$?
        if [ $status = 0 ]; then
            [ -s "$work/out" ] && [ ! -s "$work/err" ] && continue
        elif [ $status = 1 ] && [ ! -s "$work/out" ]; then
            read -r said <"$work/err"
            [ "$said" = "latchsym: $work/trace: line $line is not understood" ] && continue
            [ "$said" = "latchsym: refused 10" ] && [ $line = 1 ] && continue
        fi
        fail "$name cut at byte $end: status $status, $(cat "$work/err")"
    done
done

# answers_agree WANTED GOT: each line begins as the wanted one does, up to its loads, and was
# answered at the first attempt; the last line is the same
answers_agree() {
    awk 'NR == FNR { want[FNR] = $0; lines = FNR; next }
        FNR < lines && (index($0, want[FNR]) != 1 || $0 !~ / tries 1$/) || FNR == lines && $0 != want[FNR] { exit 1 }
        { seen = FNR }
        END { if (seen != lines) exit 1 }' "$1" "$2"
}
# memory is not said to be wanting at any size: an item after another, with readers over all numbers,
# and then a lookup of each at once; and batches of each size that a line has room for
awk -v items=$((1000 ${EMULATED:+- 900})) -v wanted="$work/wanted" 'BEGIN {
    print "latchtrace 1 halfopen 65535"
    for (i = 0; i < items; i++) {
        reader = 4294967295 - (items - 1 - i) * 4294967
        printf "insert %d %d %d\nwrite end\nstart %.0f %d\nread %.0f 9999\n", i * 16, i * 16 + 16, i, reader, i * 16, reader
        printf "%.0f 0x%x -> %d gen %d loads \n", reader, i * 16, i, i + 1 >wanted
        starts = starts sprintf("start %.0f %d\n", reader, i * 16)
        reads = reads sprintf("read %.0f 9999\n", reader)
        answers = answers sprintf("%.0f 0x%x -> %d gen %d loads \n", reader, i * 16, i, items)
    }
    printf "%s%s", starts, reads
    printf "%sseq %d gen %d\n", answers, 2 * items, items >wanted
}' >"$work/trace"
"$program" trace "$work/trace" >"$work/out" 2>"$work/err" && answers_agree "$work/wanted" "$work/out" || fail "1000 items: $(cat "$work/err")"
awk -v largest=290 -v wanted="$work/wanted" 'BEGIN {
    print "latchtrace 3 halfopen 1024"
    for (size = 0; size <= largest; size++) {
        erased = size > 0 ? size - 1 : 0
        printf "batch %d %d", erased, size
        for (low = 1; low <= erased; low++) printf " %d", low
        for (low = 1; low <= size; low++) printf " %d %d %d", low, low + 1, size % 10
        printf "\nwrite end\nstart 1 %d\nread 1 9999\n", size
        printf "1 0x%x -> %s gen %d loads \n", size, (size > 0 ? size % 10 : "-"), size + 1 >wanted
    }
    printf "seq %d gen %d\n", 2 * largest + 2, largest + 1 >wanted
}' >"$work/trace"
"$program" trace "$work/trace" >"$work/out" 2>"$work/err" && answers_agree "$work/wanted" "$work/out" || fail "batches of each size: $(cat "$work/err")"

# a batch of seven items is stopped before its first step and after each, with a lookup of each item
# at a stop: all are there or none is, in no more loads than a red-black tree of seven takes; the
# stores of the items, of their links and of a root come before the second flip
awk 'BEGIN {
    printf "latchtrace 2 closed 8\nbatch 0 7"
    for (i = 0; i < 7; i++) {
        low = i * 3 % 7 * 16
        printf " %d %d %d", low, low, i
        lookups = lookups sprintf("start %d %d\nread %d 100\n", i, low, i)
    }
    print ""
    for (stop = 0; stop < 200; stop++) printf "%swrite 1\n", lookups
}' >"$work/trace"
"$program" trace "$work/trace" >"$work/out" 2>"$work/err" && awk '
    { item = lookups % 7 }
    $0 == "seq 2 gen 1" && lookups == 7 * 200 { ended = 1; next }
    item == 0 && / gen 1 / { new = 1 }
    !new { old++ }
    {
        want = sprintf("%d 0x%x -> %s gen %d ", item, item * 3 % 7 * 16, new ? item : "-", new)
        if (index($0, want) != 1 || $8 < 3 || $8 > (new ? 27 : 3) || !/ tries 1$/) exit 1
        lookups++
    }
    END { if (!ended || !new || old <= 7 * 3 * 7) exit 1 }' "$work/out" || fail "a batch at each stop: $(cat "$work/err")"

# in_a_row COUNT MOST: so many items in rising order and then one more by single steps, at each of
# which an address in each item and one in the gap before it are looked up: each lookup has the items
# of one generation, at its first attempt, within MOST loads, as few as a balanced tree takes
in_a_row() {
    awk -v n="$1" '
        function insert(i) { printf "insert %d %d %d\n", 16 * i + 16, 16 * i + 24, i }
        function look() { for (i = 0; i <= n; i++) printf "start 1 %d\nread 1 200\nstart 1 %d\nread 1 200\n", 16 * i + 19, 16 * i + 13 }
        BEGIN {
            printf "latchtrace 1 halfopen %d\n", n + 1
            for (j = 0; j < n; j++) { insert(j); print "write end" }
            look()
            insert(n)
            for (stop = 0; stop < 64; stop++) { print "write 1"; look() }
        }' >"$work/row"
    "$program" trace "$work/row" >"$work/out" || { fail "$1 items in rising order: status $?"; return; }
    awk -v n="$1" -v most="$2" '
        $1 == "seq" { last = $0; next }
        {
            k = (NR - 1) % (2 * n + 2)
            tag = k % 2 == 0 && k / 2 < $6 ? k / 2 : "-"
            if ($4 != tag || $6 != n && $6 != n + 1 || $6 < before || $8 > most || $10 != 1) exit 1
            before = $6
            seen[$6]++
        }
        END { exit last != "seq " 2 * n + 2 " gen " n + 1 || NR != 65 * (2 * n + 2) + 1 || seen[n] < 6 * (2 * n + 2) || !seen[n + 1] }' "$work/out" ||
        fail "$1 items in rising order"
}
in_a_row 7 27
in_a_row 15 35
in_a_row 63 51
[ -n "${EMULATED:-}" ] || in_a_row 1000 79

# no count, capacity or reader is too large: the most nodes, and readers of the greatest numbers
awk 'BEGIN {
    print "latchtrace 1 halfopen 65535"
    for (i = 0; i < 300; i++) printf "insert %d %d %d\nwrite 4294967295\nstart 4294967295 %d\nread 4294967295 4294967295\n", 16 * i, 16 * i + 8, i, 16 * i + 4
}' >"$work/many"
"$program" trace "$work/many" | awk '
    $1 == "seq" { ended = $0 == "seq 600 gen 300"; next }
    $1 != 4294967295 || $4 != NR - 1 || $6 != NR || $10 != 1 { exit 1 }
    END { exit !ended || NR != 301 }' || fail "a table of 65535 nodes"
awk 'BEGIN {
    print "latchtrace 1 halfopen 65536 246"
    for (i = 0; i < 20000; i++) printf "start 4294967294 %d\nread 4294967294 4294967295\n", i
}' >"$work/many"
"$program" trace "$work/many" | awk '
    $1 == "seq" { ended = $0 == "seq 246 gen 123"; next }
    !/^4294967294 0x[0-9a-f]+ -> - gen 123 loads 3 tries 1$/ { exit 1 }
    END { exit !ended || NR != 20001 }' || fail "20000 lookups in 65536 nodes"

# what the command line may ask
expect() {
    local want=$1 status=0
    shift
    "$program" "$@" >"$work/out" 2>"$work/err" || status=$?
    [ $status = "$want" ] || fail "latchsym $*: status $status in place of $want"
}
expect 0 --help && [ -s "$work/out" ] && [ ! -s "$work/err" ] || fail "--help: not on standard output"
expect 2 && [ ! -s "$work/out" ] && [ -s "$work/err" ] || fail "no words: not on standard error"
expect 2 trace && [ ! -s "$work/out" ] && [ -s "$work/err" ] || fail "no file: not on standard error"
expect 2 lock both_ends.trace && [ ! -s "$work/out" ] && [ -s "$work/err" ] || fail "no subcommand: not on standard error"
for words in $'\xff' $'trace \xff' $'trace both_ends.trace \xff' $'lookup --modules \xff' $'--help \xff'; do
    # shellcheck disable=SC2086
    expect 2 $words && [ ! -s "$work/out" ] && [ "$(cat "$work/err")" = "latchsym: an argument is not valid UTF-8" ] || fail "a word that is no text: $(cat "$work/err")"
done
expect 2 trace both_ends.trace both_ends.trace && [ ! -s "$work/out" ] && [ -s "$work/err" ] || fail "two files: not on standard error"
expect 1 trace no_such.trace && [ "$(cat "$work/err")" = "latchsym: no_such.trace: cannot be read" ] || fail "no such file"
expect 1 trace --steps no_such.trace && [ "$(cat "$work/err")" = "latchsym: no_such.trace: cannot be read" ] || fail "no such file of steps"
expect 2 trace --steps && [ ! -s "$work/out" ] && [ -s "$work/err" ] || fail "steps of no file: not on standard error"
expect 1 trace . && [ "$(cat "$work/err")" = "latchsym: .: cannot be read" ] || fail "a folder"
if [ -e /dev/full ]; then
    for words in "trace both_ends.trace" "trace --steps both_ends.trace" --help; do
        status=0
        # shellcheck disable=SC2086
        "$program" $words >/dev/full 2>"$work/err" || status=$?
        [ $status = 1 ] && [ "$(cat "$work/err")" = "latchsym: cannot write" ] || fail "$words: a full device is not reported"
    done
fi
[ $failed = 1 ] || echo "traces: $(ls ./*.trace | wc -l) run"
exit $failed
