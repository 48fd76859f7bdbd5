#!/usr/bin/env bash
# Follows logs: those of examples/logs/ come out as without --follow, since their listings stay as they
# are. Of a log that goes on, each line is named by the listings as they are when its end comes, and a
# line that asks for no name makes no reading; what is noted is noted once, before the first line; and
# while listings give no names, lines have none, which is told once.
set -euo pipefail
. "$(dirname "$0")/lib/program.sh"
build latchsym
cd "$work"

for log in "$top"/examples/logs/*.log; do
    name=${log%.log}
    listings=$top/examples/listings/basic
    [ ! -e "$name.kallsyms" ] || listings=$name
    options=(--kallsyms "$listings.kallsyms")
    [ ! -e "$listings.modules" ] || options+=(--modules "$listings.modules")
    for form in '' --exact --callers; do
        wanted=$name.${form#--}
        [ -n "$form" ] || wanted=$name.expected
        "$program" annotate --follow $form "${options[@]}" "$log" >out 2>err && cmp -s out "$wanted" && [ ! -s err ] ||
            fail "$form $log: $(cat err)"
    done
done

# lists NAME..: the listing has these names of modules for one address
lists() {
    printf 'ffffffff81000000 T _stext\nffffffff81001000 T _etext\n' >new
    [ $# = 0 ] || printf 'ffffffffc0000010 t %s_a\t[%s]\n' "$1" "$1" >>new
    mv new kallsyms
}
# begins OPTION..: follows a log that goes on; it ends by `ends`
begins() {
    : >wanted
    rm -f pipe
    mkfifo pipe
    "$program" annotate --follow --kallsyms kallsyms "$@" pipe >out 2>err &
    follower=$!
    exec 3>pipe
}
# says LINE TEXT: the log goes on by a line (with what stands before it), and this comes out
says() {
    printf '%s\n' "$1" >&3
    printf '%s\n' "$2" >>wanted
    waits out wanted
    sleep 0.2
}
# ends STATUS ERRORS: so it ends, with this on standard error
ends() {
    local status=0
    exec 3>&-
    wait $follower || status=$?
    [ $status = "$1" ] || fail "status $status in place of $1"
    cmp -s out wanted || fail "at the end: $(cat out)"
    [ "$(cat err)" = "$2" ] || fail "told: $(cat err)"
}

# a module that is loaded, one that is loaded in its place, and one that goes
lists
begins
says '[<ffffffffc0000018>] 1' '[<ffffffffc0000018>] 1'
lists ext4
says '[<ffffffffc0000018>] 2' '[<ffffffffc0000018>] ext4_a+0x8/0xff0 [ext4] 2'
lists xfs
says '[<ffffffffc0000018>] 3' '[<ffffffffc0000018>] xfs_a+0x8/0xff0 [xfs] 3'
lists
says '[<ffffffffc0000018>] 4' '[<ffffffffc0000018>] 4'
# a line whose beginning comes before a module is loaded, and its end afterwards
printf 'at 0xffffffffc0000010 ' >&3
sleep 0.3
lists ext4
says 'and [<ffffffffc0000018>]' 'at 0xffffffffc0000010 ext4_a+0x0/0xff0 [ext4] and [<ffffffffc0000018>] ext4_a+0x8/0xff0 [ext4]'
# a frame is one behind the line before, whatever the listings are
lists xfs
says ' [<ffffffffc0000018>] a' ' [<ffffffffc0000018>] xfs_a+0x8/0xff0 [xfs] a'
lists ext4
says ' [<ffffffffc0000010>] b' ' [<ffffffffc0000010>] b'
# the last line, whose end is that of the log
printf 'at 0xffffffffc0000018' >&3
sleep 0.3
lists xfs
printf 'at 0xffffffffc0000018 xfs_a+0x8/0xff0 [xfs]' >>wanted
ends 0 ''
# and one that asks for no name
lists
begins
rm kallsyms
printf 'quiet' | tee -a wanted >&3
ends 0 ''

# what is noted is noted once, as the listing is at the beginning
printf 'ffffffff81000000 T _text\n' >kallsyms
begins
echo 'latchsym: note: kallsyms: has no symbol _stext' >noted
waits err noted
says 1 1
says 2 2
lists ext4
says 'at ffffffffc0000018' 'at ffffffffc0000018 ext4_a+0x8/0xff0 [ext4]'
printf 'ffffffff81000000 T _text\n' >kallsyms
says 3 3
ends 0 'latchsym: note: kallsyms: has no symbol _stext'

# what the log says itself is counted over all listings
lists ext4
begins
for turn in 1 2 3 4 5; do
    says "ffffffffc0000018 other+0x8/0x10 $turn" "ffffffffc0000018 ext4_a+0x8/0xff0 [ext4] other+0x8/0x10 $turn"
done
ends 0 'latchsym: note: pipe: its own names disagree with the listing (5 of 5); is the listing of this boot?'

# a log that is compressed, whose first two bytes come in two blocks
begins
printf '\037' >&3
sleep 0.2
printf '\213\n' >&3
sleep 0.2
printf '\037\213\n' >>wanted
ends 0 'latchsym: note: pipe: is compressed by gzip; unpack it first'

# unread REASON: it was told at once that the listing of symbols gives no names
unread() {
    echo "latchsym: note: ${2-kallsyms}: cannot be read again ($1); lines have no names until it can" >noted
    waits err noted
}
named='at ffffffffc0000018 ext4_a+0x8/0xff0 [ext4]'
# a listing that cannot be read any more: lines without an address do not need it, the others have no
# names, which is told once, and what the log says itself is not counted
lists ext4
begins
says 'at ffffffffc0000018' "$named"
rm kallsyms
says quiet quiet
[ ! -s err ] || fail "a line without an address: $(cat err)"
for turn in 1 2 3 4 5; do
    says "ffffffffc0000018 other+0x8/0x10 $turn" "ffffffffc0000018 other+0x8/0x10 $turn"
done
unread 'No such file or directory'
lists ext4
says 'at ffffffffc0000018' "$named"
rm kallsyms
says 'at ffffffffc0000018' 'at ffffffffc0000018'
ends 0 "$(cat noted)"
# a trace goes on while nothing has a name
lists ext4
begins
says ' [<ffffffffc0000018>]' " [<ffffffffc0000018>] ${named#* * }"
rm kallsyms
says ' [<ffffffffc0000010>]' ' [<ffffffffc0000010>]'
lists ext4
says ' [<ffffffffc0000010>]' ' [<ffffffffc0000010>]'
ends 0 "$(unread 'No such file or directory'; cat noted)"
# one that shows no symbol any more
lists ext4
begins
says 'at ffffffffc0000018' "$named"
sed 's/^[0-9a-f]*/0000000000000000/' kallsyms >hidden
mv hidden kallsyms
says 'at ffffffffc0000018' 'at ffffffffc0000018'
unread 'no symbol'
ends 0 "$(cat noted)"
# regions that cannot be understood any more, or that are too many of one module
lists ext4
echo 'ext4 4096 0 - Live 0xffffffffc0000000' >modules
printf 'latchregions 1\next4 core 0xffffffffc0000000 4096\n' >regions
begins --modules modules --regions regions
says 'at ffffffffc0000018' "$named"
printf 'latchregions 1\next4 core\n' >regions
says 'at ffffffffc0000018' 'at ffffffffc0000018'
unread 'line 2 is not understood' regions
ends 0 "$(cat noted)"
printf 'latchregions 1\n' >regions
begins --modules modules --regions regions
says 'at ffffffffc0000018' "$named"
{ echo 'latchregions 1'; printf 'm core %d 1\n' 1 2 3 4 5 6 7 8; } >regions
says 'at ffffffffc0000018' 'at ffffffffc0000018'
unread 'a module has more than 7 regions' regions
ends 0 "$(cat noted)"

# a log that cannot be read, one of many blocks, and a reader that has gone
lists ext4
status=0
"$program" annotate --follow --kallsyms kallsyms . >out 2>err || status=$?
[ $status = 1 ] && [ ! -s out ] && [ "$(cat err)" = 'latchsym: .: cannot be read (Is a directory)' ] || fail "a folder as a log: $(cat err)"
for line in $(seq 1 9000); do echo "$line: at [<ffffffffc0000018>]"; done >log
sed 's/$/ ext4_a+0x8\/0xff0 [ext4]/' log >wanted
"$program" annotate --follow --kallsyms kallsyms log >out 2>err && cmp -s out wanted && [ ! -s err ] || fail "many blocks: $(cat err)"
yes 'at ffffffffc0000018' | timeout 60 "$program" annotate --follow --kallsyms kallsyms 2>err | head -n 1 >out || true
echo 'at ffffffffc0000018 ext4_a+0x8/0xff0 [ext4]' | cmp -s - out && [ ! -s err ] || fail "the first line of a log without an end: $(cat err)"

[ $failed = 1 ] || echo "follow: logs whose listings stay, and 6 that go on"
exit $failed
