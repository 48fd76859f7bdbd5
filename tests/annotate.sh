#!/usr/bin/env bash
# Annotates the logs of examples/logs/, and compares what is written with the logs beside them, which
# annotated once more stay as they are; looks that each line is written as soon as it has been read,
# and what is noted before a log is begun and behind it; and tries what may be wrong with the command
# line and the files. With EMULATED, large logs are left out, for which an emulator takes minutes, and
# more memory than they leave.
set -euo pipefail
. "$(dirname "$0")/lib/program.sh"
build latchsym
cd "$top/examples/logs"

# writes WANTED ARGUMENT..: these arguments write what the file has, and nothing on standard error
writes() {
    local wanted=$1 status=0
    shift
    "$program" annotate "$@" >"$work/out" 2>"$work/err" || status=$?
    [ $status = 0 ] && [ ! -s "$work/err" ] || fail "$*: status $status, $(cat "$work/err")"
    cmp -s "$work/out" "$wanted" || fail "$*: another log than $wanted"
}

# the listings of a log stand beside it, or are the basic ones; one without modules has none there
for log in *.log; do
    name=${log%.log}
    listings=../listings/basic
    [ ! -e "$name.kallsyms" ] || listings=$name
    options=(--kallsyms "$listings.kallsyms")
    [ ! -e "$listings.modules" ] || options+=(--modules "$listings.modules")
    writes "$name.expected" "${options[@]}" "$log"
    writes "$name.exact" "${options[@]}" --exact "$log"
    writes "$name.callers" --callers "${options[@]}" "$log"
    writes "$name.expected" "${options[@]}" <"$log"
    writes "$name.expected" "${options[@]}" - <"$log"
    writes "$name.expected" "${options[@]}" "$name.expected"
    writes "$name.exact" "${options[@]}" --exact "$name.exact"
    writes "$name.callers" "${options[@]}" --callers "$name.callers"
done

# by the symbols alone; between other bounds; of a kernel that was moved
cat >"$work/kallsyms" <<'END'
ffffffff81000000 T _stext
ffffffff81000100 T do_one
ffffffff81002000 T _etext
ffffffffc0000010 t ext4_a	[ext4]
ffffffffc0002000 t xfs_a	[xfs]
END
printf 'RIP: 0010:0xffffffff81000108\r\n[<ffffffffc0000018>] (ffffffffc0002004)' >"$work/log"
printf 'RIP: 0010:0xffffffff81000108 do_one+0x8/0x1f00\r\n[<ffffffffc0000018>] ext4_a+0x8/0xff0 [ext4] (ffffffffc0002004) xfs_a+0x4/0x1000 [xfs]' >"$work/wanted"
writes "$work/wanted" --kallsyms "$work/kallsyms" "$work/log"
sed 's/ do_one+0x8\/0x1f00//' "$work/wanted" >"$work/moved"
writes "$work/moved" --kallsyms "$work/kallsyms" --kernel _stext do_one "$work/log"
sed 's/0xffffffff81000108/0xffffffff91000108/; s/ffffffffc0/ffffffffd0/g' "$work/log" >"$work/high"
sed 's/0xffffffff81000108/0xffffffff91000108/; s/ffffffffc0/ffffffffd0/g' "$work/wanted" >"$work/moved"
writes "$work/moved" --offset 0x10000000 --kallsyms "$work/kallsyms" "$work/high"
: >"$work/none"
writes "$work/none" --kallsyms "$work/kallsyms" "$work/none"

# registers of a program have no answers behind `User PSW`, however addresses are taken, up to a line
# of the kernel's
printf 'ffffffff81000100 User PSW : 0xffffffff81000100 lr: ffffffff81000100\n[<ffffffff81000101>]\n Call Trace:\nUser  PSW ffffffff81000108' >"$work/log"
sed '1s/ffffffff81000100 /&do_one+0x0\/0x1f00 /; 4s/$/ do_one+0x8\/0x1f00/' "$work/log" >"$work/wanted"
writes "$work/wanted" --kallsyms "$work/kallsyms" "$work/log"
writes "$work/wanted" --kallsyms "$work/kallsyms" --exact "$work/log"
sed '1s/do_one+0x0\/0x1f00/_stext+0x100\/0x100/' "$work/wanted" >"$work/moved"
writes "$work/moved" --kallsyms "$work/kallsyms" --callers "$work/log"

# addresses of 8 digits, and no others, where the listing writes none with more
printf 'c0000000 T _stext\nc0000100 T do_one\nc0001000 T _etext\nbf000010 t ext4_a\t[ext4]\n' >"$work/narrow"
printf 'c0000108 0xc0000108 0XC0000108 c000010 0c0000108 0x0c0000108 00000000c0000108 0x00000000c0000108 bf000018' >"$work/log"
sed -E 's/^c0000108 0xc0000108 0XC0000108/c0000108 do_one+0x8\/0xf00 0xc0000108 do_one+0x8\/0xf00 0XC0000108 do_one+0x8\/0xf00/; s/bf000018/& ext4_a+0x8\/0xff0 [ext4]/' \
    "$work/log" >"$work/wanted"
writes "$work/wanted" --kallsyms "$work/narrow" "$work/log"
# where it writes one with more, those of 9 to 16; so also one that is 0
for far in '100000000 t far' '0000000000000000 t hidden' '00000000c0000000 t near'; do
    { cat "$work/narrow"; echo "$far"; } >"$work/wide"
    sed -E 's/(0x0c0000108|00000000c0000108|0x00000000c0000108)\>/& do_one+0x8\/0xf00/g' "$work/log" | sed 's/0x00000000c0000108 do_one+0x8\/0xf00 do_one+0x8\/0xf00/0x00000000c0000108 do_one+0x8\/0xf00/' >"$work/wanted"
    writes "$work/wanted" --exact --kallsyms "$work/wide" "$work/log"
done

# words of any length, bytes of any value, and a line of more than 65536 bytes, which stays as it is
{
    printf ffffffffc0000018
    head -c 100000 /dev/zero | tr '\0' f
    printf ffffffffc0000018
    printf ' ffffffffc0000018 '
    head -c 10000000 /dev/zero | tr '\0' ' '
    printf "(0xffffffffc0000018)$(printf '\\%03o' $(seq 0 255))ffffffffc0000018\n"
    printf ffffffffc0000018
    head -c 50000 /dev/zero | tr '\0' f
    printf ffffffffc0000018
    printf ' ffffffffc0000018 '
    head -c 15469 /dev/zero | tr '\0' ' '
    printf 'ffffffffc0000018\n'
} >"$work/log"
sed '2,$s/ \(ffffffffc0000018\) / \1 ext4_a+0x8\/0xff0 [ext4] /; 2,$s/18$/& ext4_a+0x8\/0xff0 [ext4]/' \
    <"$work/log" >"$work/wanted"
writes "$work/wanted" --kallsyms "$work/kallsyms" "$work/log"

# a log of 1 GB takes no more memory than a short one, and neither does a line that does not end
for line in $(seq 1 20000); do
    echo "[$line.5] pid $line: from [<ffffffffc0000018>] by 0xffffffff81000108, at ffffffff82000000"
done >"$work/log"
sed 's/18>]/& ext4_a+0x8\/0xff0 [ext4]/; s/81000108/& do_one+0x8\/0x1f00/' "$work/log" >"$work/wanted"
# many FILE: the file as often as it takes for a log of 1 GB
many() {
    local turn
    for turn in $(seq 1 $((1000000000 / $(stat -c %s "$work/log") + 1))); do cat "$1"; done
}
if [ -z "${EMULATED:-}" ]; then
    many "$work/log" | (ulimit -v 32768 && exec "$program" annotate --kallsyms "$work/kallsyms") 2>"$work/err" |
        cmp -s - <(many "$work/wanted") || fail "a log of 1 GB: $(cat "$work/err")"
    head -c 50000000 /dev/zero | tr '\0' a >"$work/long"
    (ulimit -v 32768 && exec "$program" annotate --kallsyms "$work/kallsyms" "$work/long") 2>"$work/err" | cmp -s - "$work/long" || fail "a line of 50000000 bytes: $(cat "$work/err")"
fi

# a log that goes on: what is noted is told before it is begun, and each line comes as it is read
mkfifo "$work/pipe"
echo "latchsym: note: $work/other: has no symbol _stext" >"$work/note"
sed 's/_stext/_text/' "$work/kallsyms" >"$work/other"
"$program" annotate --kallsyms "$work/other" "$work/pipe" >"$work/out" 2>"$work/err" &
reader=$!
exec 3>"$work/pipe"
waits "$work/err" "$work/note"
[ ! -s "$work/out" ] || fail "a log that was not begun was written"
for line in 1 2 3; do
    echo "[<ffffffffc0000018>]$line" >&3
    echo "[<ffffffffc0000018>] ext4_a+0x8/0xff0 [ext4]$line" >>"$work/lines"
    waits "$work/out" "$work/lines"
done
exec 3>&-
wait $reader || fail "a log that went on: status $?"

# a reader that has gone ends the program
yes 'at ffffffffc0000018' | timeout 60 "$program" annotate --kallsyms "$work/kallsyms" 2>"$work/err" | head -n 1 >"$work/out" || true
echo 'at ffffffffc0000018 ext4_a+0x8/0xff0 [ext4]' | cmp -s - "$work/out" || fail "the first line of a log without an end"

# noted LINE: behind the log of the standard input this line is noted
noted() {
    "$program" annotate --kallsyms ../listings/basic.kallsyms >"$work/out" 2>"$work/err" &&
        [ "$(cat "$work/err")" = "$1" ] || fail "a log is noted by $(cat "$work/err"), not by $1"
}
# named LINE NAME..: so is a log with these names of its own for an address of do_one
named() {
    local line=$1
    shift
    printf '[<ffffffff81000108>] %s+0x8/0x1f00\n' "$@" | noted "$line"
}
other='latchsym: note: standard input: its own names disagree with the listing'
named '' do_one a b c d
named "$other (5 of 6); is the listing of this boot?" do_one a b c d e
named "$other (6 of 11); is the listing of this boot?" do_one do_one a do_one b do_one c do_one d e f
named '' do_one do_one a do_one b do_one c do_one d e
named '' '? do_one' '(do_one' a '? do_one' b do_one c do_one d
named "$other (5 of 5); is the listing of this boot?" '? a' '(b' c d e
none='latchsym: note: standard input: none of its'
printf 'at 0000000000000018 ip 000055d0c1a2b1c9\n' | noted ''
printf 'ffffffff82000000\n' | noted "$none 1 addresses has a name in the listing"
printf 'ffffffff82000000 %s\n' 1 2 3 4 5 | noted "$none 5 addresses has a name in the listing"
printf 'ffffffff82000000 %s\n' 1 'User PSW ffffffff82000000' | noted "$none 3 addresses has a name in the listing"
printf 'ffffffff82000000 %s\n' 1 2 3 4 5 ffffffff81000108 | noted ''
printf '\377' | noted ''
# a packed log and one in UTF-16, also where they come byte by byte; of no others, and nothing more
gzip='latchsym: note: standard input: is compressed by gzip; unpack it first'
wide='latchsym: note: standard input: is UTF-16; convert it first'
# slowly BYTE..: these bytes, in octal, each in a block of its own
slowly() {
    local byte
    for byte; do
        printf "\\$byte"
        sleep 0.2
    done
}
printf '\037\213' | noted "$gzip"
slowly 037 213 010 | noted "$gzip"
printf '\377\376h\0' | noted "$wide"
printf '\376\377\0h' | noted "$wide"
slowly 376 377 0 | noted "$wide"
printf '\037' | noted ''
slowly 377 377 376 | noted ''
printf ' \037\213\n\377\376\n' | noted ''
{ printf '\037\213\n' && printf 'ffffffff82000000 %s\n' 1 2 3 4 5; } | noted "$gzip"
{ printf '\376\377\n' && printf '[<ffffffff81000108>] %s+0x8/0x1f00\n' a b c d e; } | noted "$wide"

# refused STATUS LINE ARGUMENT..: nothing on standard output, this line on standard error (any,
# where it is empty), and this status
refused() {
    local want=$1 line=$2 status=0
    shift 2
    "$program" annotate "$@" >"$work/out" 2>"$work/err" </dev/null || status=$?
    [ $status = "$want" ] && [ ! -s "$work/out" ] && [ -s "$work/err" ] || fail "$*: status $status in place of $want"
    [ -z "$line" ] || [ "$(cat "$work/err")" = "latchsym: $line" ] || fail "$*: $(cat "$work/err")"
}
symbols=(--kallsyms "$work/kallsyms")
both=("${symbols[@]}" --modules ../listings/basic.modules)
refused 1 "no_such: cannot be read (No such file or directory)" "${symbols[@]}" no_such
refused 1 ".: cannot be read (Is a directory)" "${symbols[@]}" .
refused 1 "no_such: cannot be read (No such file or directory)" --kallsyms no_such x86_oops.log
refused 1 "no_such: cannot be read (No such file or directory)" --kallsyms . --modules no_such no_log
refused 1 "no_such: cannot be read (No such file or directory)" "${both[@]}" --regions no_such no_log
printf 'latchregions 1\nm core 0 1\n' >"$work/regions"
refused 1 "$work/regions: line 2 is not understood" "${both[@]}" --regions "$work/regions" no_log
{ printf 'latchregions 1\n'; printf 'm core %d 1\n' 1 2 3 4 5 6 7 8; } >"$work/regions"
refused 1 "refused 14" "${both[@]}" --regions "$work/regions" no_log
refused 2 "--regions needs --modules" "${symbols[@]}" --regions "$work/regions"
refused 2 "bad offset 1x" "${symbols[@]}" --offset 1x
refused 2 "bad offset, 0x is missing before 1a600000" "${symbols[@]}" --offset 1a600000
refused 2 "--callers and --exact exclude each other" "${symbols[@]}" --callers --exact
refused 2 "--callers and --exact exclude each other" --exact "${symbols[@]}" --callers no_such
refused 2 "--kernel takes two names of symbols, and its END is 0x10" "${symbols[@]}" --kernel _stext 0x10
refused 2 "" "${symbols[@]}" x86_oops.log kasan.log
refused 2 "" "${symbols[@]}" --kernel _stext
refused 2 "" "${symbols[@]}" "${symbols[@]}"
refused 2 "" "${symbols[@]}" --addresses x86_oops.log
if [ -e /dev/full ]; then
    status=0
    "$program" annotate "${symbols[@]}" x86_oops.log >/dev/full 2>"$work/err" || status=$?
    [ $status = 1 ] && [ "$(cat "$work/err")" = "latchsym: cannot write (No space left on device)" ] || fail "a full device is not reported"
    # notes that cannot be told of are no fault
    "$program" annotate --kallsyms "$work/other" x86_oops.log >"$work/out" 2>/dev/full || fail "notes on a full device: status $?"
fi
if [ -r /proc/kallsyms ]; then
    "$program" annotate "$work/none" >"$work/out" 2>"$work/err" && [ ! -s "$work/out" ] || fail "the symbols of this machine: $(cat "$work/err")"
fi
[ $failed = 1 ] || echo "annotate: $(ls ./*.log | wc -l) logs, and one that goes on"
exit $failed
