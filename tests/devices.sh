#!/usr/bin/env bash
# Fails each read and each write of a run of the program in turn, and all writes from each one on, until
# a run meets no failure. A read that fails is told as that of its file, with status 1 and nothing on
# standard output, where a beginning of an annotated log may stand; but where listings are read again it
# is a note, and the lines have no names. A write that fails is told, and a beginning was written. Calls
# fail with several errors: of a broken pipe `annotate` says nothing. A write that takes a few bytes
# alone is no failed one. Each file is opened once. A standard input that is closed cannot be read. Then
# reads logs and listings a few bytes at a time.
#
# The program is linked to the C library dynamically, so a library in front of it can fail a call.
# Needs a C compiler.
set -euo pipefail
. "$(dirname "$0")/lib/program.sh"
build latchsym
cc -O1 -shared -fPIC -o "$work/fail.so" "$top/tests/devices/fail.c"
cd "$work"
calls=0

# once VARIABLE=NUMBER ARGUMENT..: a run in which that call fails
once() {
    local setting=$1
    shift
    status=0
    rm -f mark
    env "$setting" FAILURE_MARK="$work/mark" LD_PRELOAD="$work/fail.so" "$program" "$@" <input >out 2>err || status=$?
}

# is_begun: whether what was written is a beginning of what is written where nothing fails
is_begun() {
    [ ! -s out ] || cmp -s -n "$(stat -c %s out)" out ample
}

# is_unnamed FILE REASON: whether the log was copied without a name, and was told that FILE cannot be read
# again, and why
is_unnamed() {
    [ $status = 0 ] && cmp -s out log &&
        [ "$(cat err)" = "latchsym: note: $1: cannot be read again$2; lines have no names until it can" ]
}

# pieces ARGUMENT..: what goes out a few bytes at a time is what goes out in one piece
pieces() {
    local most
    for most in 1 10 4095; do
        once LONGEST_WRITE=$most "$@"
        [ $status = 0 ] && [ ! -s err ] && cmp -s out ample ||
            fail "latchsym $*: $most bytes are written at a time: status $status, $(cat err)"
    done
}

declare -A said=([4]='Interrupted system call' [28]='No space left on device' [32]='Broken pipe')

# reasons ARGUMENT..: the first read, and all writes, fail with an error of each kind. std makes a write
# again that was interrupted, but one that is too large for its buffer.
reasons() {
    local error name wanted
    for error in "${!said[@]}"; do
        if [ $error = 4 ]; then
            FAILURE=4 once FAILED_WRITE=1 "$@"
            wanted="latchsym: cannot write"
            case $1 in
                annotate | address | check | record) wanted+=" (${said[4]})" ;;
            esac
            { [ $status = 0 ] && [ ! -s err ] && cmp -s out ample; } ||
                { [ $status = 1 ] && [ "$(cat err)" = "$wanted" ] && [ ! -s out ]; } ||
                fail "latchsym $*: the first write is interrupted: status $status, $(cat err)"
        else
            FAILURE=$error once FAILED_WRITES=1 "$@"
            case $1 in
                annotate | address | check | record) wanted="latchsym: cannot write (${said[$error]})" ;;
                *) wanted='latchsym: cannot write' ;;
            esac
            [[ $1 != annotate && $1 != record ]] || [ $error != 32 ] || wanted=
            [ $status = 1 ] && [ "$(cat err)" = "$wanted" ] && [ ! -s out ] ||
                fail "latchsym $*: all writes fail with error $error: status $status, $(cat err)"
        fi
        FAILURE=$error once FAILED_READ=1 "$@"
        name=$(basename "$(cat mark)")
        [ "$name" != input ] || name=-
        wanted="latchsym: $name: cannot be read"
        case $1 in
            annotate | address | check | record) wanted+=" (${said[$error]})" ;;
        esac
        [ "$1" != record ] || echo 'latchhistory 1' | cmp -s - out || fail "latchsym $*: begins with $(head -c 200 out)"
        [ $status = 1 ] && [ "$(cat err)" = "$wanted" ] && { [ ! -s out ] || [ "$1" = record ]; } ||
            fail "latchsym $*: the first read fails with error $error: status $status, $(cat err)"
    done
}

# streams ARGUMENT..: whether the command writes before it has read all
streams() { [ "$1" = record ] || [[ $1 = annotate && $* != *"--offset auto"* ]]; }

# tried READS WRITES ARGUMENT..: each call of the run is failed; so many reads and writes there are at
# least
tried() {
    local reads=$1 writes=$2 call name before=0 reason= again=0
    shift 2
    case $1 in
        annotate | address | check | record) reason=' (Input/output error)' ;;
    esac
    "$program" "$@" <input >ample 2>err && [ ! -s err ] || fail "latchsym $*: $(cat err)"
    pieces "$@"
    reasons "$@"
    for ((call = 1; ; call++)); do
        once FAILED_READ=$call "$@"
        [ -e mark ] || break
        name=$(basename "$(cat mark)")
        [ "$name" != input ] || name=-
        if [[ $* == *--follow* ]] && is_unnamed "$name" "$reason"; then
            again=$((again + 1))
            continue
        fi
        [ $status = 1 ] && [ "$(cat err)" = "latchsym: $name: cannot be read$reason" ] && is_begun ||
            fail "latchsym $*: read $call fails: status $status, $(cat err)"
        if ! streams "$@"; then
            [ ! -s out ] || fail "latchsym $*: read $call fails: $(head -c 200 out)"
        elif [ "$(stat -c %s out)" -lt $before ]; then
            fail "latchsym $*: read $call fails, and less is written than before"
        else
            before=$(stat -c %s out)
        fi
    done
    [ $status = 0 ] && cmp -s out ample || fail "latchsym $*: no read fails: status $status, $(cat err)"
    [[ $* != *--follow* ]] || [ $again -ge 3 ] || fail "latchsym $*: $again reads of listings again, fewer than 3"
    [ $((call - 1)) -ge "$reads" ] || fail "latchsym $*: $((call - 1)) reads, fewer than $reads"
    ! streams "$@" || [ $before -gt 0 ] || fail "latchsym $*: nothing was written before the last read"
    calls=$((calls + call - 1))
    for ((call = 1; ; call++)); do
        once FAILED_WRITES=$call "$@"
        [ $status = 1 ] && [ "$(cat err)" = "latchsym: cannot write$reason" ] && is_begun ||
            [ ! -e mark ] || fail "latchsym $*: writes from $call on fail: status $status, $(cat err)"
        once FAILED_WRITE=$call "$@"
        [ -e mark ] || break
        [ $status = 1 ] && [ "$(cat err)" = "latchsym: cannot write$reason" ] && is_begun ||
            fail "latchsym $*: write $call fails: status $status, $(cat err)"
    done
    [ $status = 0 ] && cmp -s out ample || fail "latchsym $*: no write fails: status $status, $(cat err)"
    [ $((call - 1)) -ge "$writes" ] || fail "latchsym $*: $((call - 1)) writes, fewer than $writes"
    calls=$((calls + call - 1))
}

# Files of several blocks: what comes after their beginnings is a comment, or malformed.
# long NAME BEGINNING
long() {
    { printf "$2"; for _ in {1..3500}; do echo '# nothing of a run'; done; } >"$1"
}
long modules 'a 4096 1 - Live 0x3000\n'
long kallsyms '1000 T _stext\n2000 T _end\n3010 t a_run\t[a]\n'
long regions 'latchregions 1\na core 0x3000 4096\n'
long script 'unload 1 b\nlook 1 0x2000\n'
long log 'at ffffffff81000108, 00003018, 0x000003018\n'
long history 'latchhistory 1\nlisting 0.5\n1000 T _stext\n2000 T _end\n3010 t a_run\t[a]\n'
long timed '1.000000: at ffffffff81000108, 00003018, 0x000003018\n'
long moved '1.000000: Kernel Offset: 0x0 from 0x1000 at 00003018\n'
long events ' 1.000000: tracing_mark_write: latchsym\n'
long asked ''
for _ in {1..5000}; do echo 0x3018; done >>asked
cp asked input
{ echo 'latchtrace 1 halfopen 1'; for _ in {1..2500}; do printf 'start 1 0x0\nread 1 3\n'; done; } >trace
both=(--modules modules --kallsyms kallsyms --regions regions)
cp "$top/examples/traces/torn_item.trace" short
tried 2 1 trace short
tried 2 1 trace trace
tried 2 2 trace --steps trace
tried 11 3 lookup "${both[@]}" --addresses asked
tried 8 3 lookup --modules modules --kallsyms kallsyms --addresses - 1
tried 5 3 lookup --modules-from-symbols --kallsyms kallsyms --addresses asked --json
tried 12 1 run "${both[@]}" --readers 1 script
tried 6 2 annotate --kallsyms kallsyms log
tried 12 2 annotate "${both[@]}" log
tried 5 1 annotate --kallsyms kallsyms -
tried 9 2 annotate --follow --kallsyms kallsyms log
tried 21 2 annotate --follow "${both[@]}" log
tried 5 2 annotate --history history timed
tried 5 1 annotate --history history --offset auto moved
tried 5 2 record --kallsyms kallsyms events
tried 9 1 check "${both[@]}"
tried 3 1 check --kallsyms kallsyms
tried 9 1 address "${both[@]}" a:a_run none
tried 3 1 address --kallsyms kallsyms --json a_run

# once_each ARGUMENT..: each file that the run opens it opens once, as a pipe by a name needs
once_each() {
    local again
    rm -f opened
    env OPENED_FILES="$work/opened" LD_PRELOAD="$work/fail.so" "$program" "$@" <input >out 2>err || fail "latchsym $*: $(cat err)"
    [ -s opened ] || fail "latchsym $*: opens no file"
    again=$(sort opened | uniq -d)
    [ -z "$again" ] || fail "latchsym $*: opens twice: $again"
}
once_each trace trace
once_each lookup "${both[@]}" --addresses asked
once_each run "${both[@]}" --readers 1 script
once_each annotate "${both[@]}" log
once_each annotate --history history timed
once_each check "${both[@]}"
once_each address "${both[@]}" a:a_run

# closed ARGUMENT..: a standard input that is closed cannot be read, and no file that is opened takes
# its place
closed() {
    local reason=
    case $1 in
        annotate | record) reason=' (Bad file descriptor)' ;;
    esac
    status=0
    "$program" "$@" <&- >out 2>err || status=$?
    [ $status = 1 ] && [ "$(cat err)" = "latchsym: -: cannot be read$reason" ] ||
        fail "latchsym $* without a standard input: status $status, $(cat err)"
    [ ! -s out ] || [ "$1" = record ] || fail "latchsym $* without a standard input: $(head -c 200 out)"
}
closed annotate --kallsyms kallsyms -
closed annotate --follow --kallsyms kallsyms -
closed annotate --history - timed
closed lookup --modules modules --kallsyms kallsyms --addresses - 1
closed record --kallsyms kallsyms -
"$program" check "${both[@]}" <&- >out 2>err && [ ! -s err ] || fail "a check without a standard input: $(cat err)"

# portions ARGUMENT..: what is read a few bytes at a time is answered as in one piece
portions() {
    local most
    "$program" "$@" <input >ample
    for most in {1..40}; do
        status=0
        env LONGEST_READ="$most" LD_PRELOAD="$work/fail.so" "$program" "$@" <input >out 2>err || status=$?
        [ $status = 0 ] && [ ! -s err ] && cmp -s out ample || fail "latchsym $*: $most bytes at a time: status $status, $(cat err)"
    done
}
cases=$top/tests/cases
cp "$cases"/a_log_by_listed_modules/{modules,kallsyms,log} .
cp log input
portions annotate --kallsyms kallsyms --kernel _stext _end log
portions annotate --modules modules --kallsyms kallsyms
portions annotate --follow --kallsyms kallsyms log
portions check --modules modules --kallsyms kallsyms
portions address --kallsyms kallsyms do_one ext4_b
portions lookup --modules modules --kallsyms kallsyms 0xffffffffc0000018
portions trace --steps short
[ $failed = 1 ] || echo "devices: $calls calls failed, and files read in portions"
exit $failed
