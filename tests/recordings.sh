#!/usr/bin/env bash
# Records events: what is written for random blocks of them and listings is compared with what a plain
# slow program writes by the rules, and read again as a history: 6,000 recordings with a fixed seed
# (RUNS and SEED set others). Then the command: the listing is the one behind the block, what was written
# stays if something fails, and EVENTS may be the standard input. Then latchsym-record, over a folder
# that stands for tracefs: of each beginning of a file it makes a history that goes on. `--help` and words
# that it does not take are tried, too. Needs python3.
set -euo pipefail
. "$(dirname "$0")/lib/program.sh"
command -v python3 >/dev/null || { echo "recordings: python3 is not installed"; exit 1; }
PROVED= build recorded_blocks
python3 "$top/tests/recordings/compared.py" "$program" "${RUNS:-6000}" "${SEED:-1}"
build latchsym
cd "$work"

# lists NAME..: the listing has these modules now
lists() {
    printf 'ffffffff81000000 T _stext\n' >new
    for name; do printf 'ffffffffc0000010 t %s_a\t[%s]\n' "$name" "$name" >>new; done
    mv new kallsyms
}
# writes: ends the script unless `got` comes to be what is wanted
writes() {
    waits got wanted
    [ $failed = 0 ] || exit 1
}
# ends STATUS ERRORS: so the command ends that was begun
ends() {
    local status=0
    wait $recorder || status=$?
    [ $status = "$1" ] || stop "status $status in place of $1: $(cat err)"
    [ "$(cat err)" = "$2" ] || stop "said: $(cat err)"
    writes
}
said='   sh-1 [000] ..... '

# each listing is read behind its block, and what is written is there at once
lists
mkfifo events
"$program" record --kallsyms kallsyms events >got 2>err &
recorder=$!
exec 3>events
printf 'latchhistory 1\n' >wanted
writes
printf '%s1.5: tracing_mark_write: latchsym\n' "$said" >&3
printf 'listing 1.5\nffffffff81000000 T _stext\n' >>wanted
writes
lists xfs
printf '%s2.5: module_load: xfs OE\n%s2.7: module_fr' "$said" "$said" >&3
printf 'change 2.5\nffffffffc0000010 t xfs_a\t[xfs]\n' >>wanted
writes
lists
printf 'ee: xfs\n' >&3
printf 'change 2.7\ngone xfs\n' >>wanted
writes
# a listing that cannot be read ends it, and what was written stays
rm kallsyms
printf '%s3.5: module_load: xfs OE\n' "$said" >&3
exec 3>&-
ends 1 'latchsym: kallsyms: cannot be read (No such file or directory)'

# so does one that shows no address
printf '0000000000000000 T _stext\n' >kallsyms
printf '%s1.5: tracing_mark_write: latchsym\n' "$said" >lines
"$program" record --kallsyms kallsyms lines >got 2>err &
recorder=$!
printf 'latchhistory 1\n' >wanted
ends 1 'latchsym: kallsyms: every address is 0; read it as root (kernel.kptr_restrict)'

# the standard input, and a recording that goes on; a last line without its end is a line
lists ext4
printf '%s1.5: tracing_mark_write: latchsym' "$said" |
    "$program" record --append --kallsyms kallsyms - >got 2>err
printf 'listing 1.5\nffffffff81000000 T _stext\nffffffffc0000010 t ext4_a\t[ext4]\n' >wanted
cmp got wanted || stop "of the standard input: $(cat got err)"

# events that cannot be read, an output that cannot be written, and one that nobody reads
"$program" record none >got 2>err &
recorder=$!
printf 'latchhistory 1\n' >wanted
ends 1 'latchsym: none: cannot be read (No such file or directory)'
: >wanted
"$program" record --kallsyms kallsyms lines >/dev/full 2>err && stop 'a full device'
[ "$(cat err)" = 'latchsym: cannot write (No space left on device)' ] || stop "a full device: $(cat err)"
mkfifo gone
"$program" record --kallsyms kallsyms events >gone 2>err &
recorder=$!
: <gone
exec 3>events
(trap '' PIPE && printf '%s1.5: tracing_mark_write: latchsym\n' "$said" >&3) 2>/dev/null || true
exec 3>&-
: >got
ends 1 ''

# the script's own command line
usage='usage: latchsym-record FILE'
for word in -h --help; do
    [ "$("$top/scripts/latchsym-record" $word 2>err)" = "$usage" ] || stop "latchsym-record $word: $(cat err)"
done
for words in '' '--boot' 'a b'; do
    status=0
    "$top/scripts/latchsym-record" $words >got 2>err || status=$?
    [ "$status $(cat err)" = "2 latchsym-record: $usage" ] || stop "latchsym-record $words: $status $(cat err)"
done

timeout 120 python3 "$top/tests/recordings/script.py" "$top/scripts/latchsym-record" "$program"
echo 'recordings: blocks, listings, faults and the script are as they are to be'
