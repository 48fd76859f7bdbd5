#!/usr/bin/env bash
# Asks for names in the listings of examples/listings/, and compares what `latchsym address` writes;
# tries the statuses and the faults. Then compares names in random listings of symbols (RUNS and SEED
# set others), and all names of this machine where its addresses are shown, with what a plain slow
# program finds and with what a lookup answers. Needs python3.
set -euo pipefail
. "$(dirname "$0")/lib/program.sh"
command -v python3 >/dev/null || { echo "address: python3 is not installed"; exit 1; }
build latchsym
cd "$top/examples/listings"

# writes LINES ARGUMENT..: the program writes these lines, and nothing on standard error, with status
# 1 if no name has an address
writes() {
    local lines=$1 status=0 wanted=1
    shift
    ! printf -- "$lines" | grep -q ' 0x\|"address"' || wanted=0
    "$program" address "$@" >"$work/out" 2>"$work/err" || status=$?
    [ $status = $wanted ] && [ ! -s "$work/err" ] || fail "address $*: status $status, $(cat "$work/err")"
    printf -- "$lines" | cmp -s - "$work/out" || fail "address $*: $(cat "$work/out")"
}

# the names of NAME.names, a line each, give NAME.found, where the modules come from a listing or not
for names in *.names; do
    name=${names%.names}
    modules=()
    [ ! -e "$name.modules" ] || modules=(--modules "$name.modules")
    mapfile -t words <"$names"
    status=0
    "$program" address "${modules[@]}" --kallsyms "$name.kallsyms" -- "${words[@]}" >"$work/out" || status=$?
    [ $status = "$(grep -q ' 0x' "$name.found" && echo 0 || echo 1)" ] || fail "$names: status $status"
    cmp "$work/out" "$name.found" || fail "$names: other lines"
done

both=(--modules basic.modules --kallsyms basic.kallsyms)
writes 'do_one 0xffffffff81000100 0x1f00\n' "${both[@]}" do_one
writes 'ext4_a+0x8 0xffffffffc0000018 0x30 [ext4]\next4:ext4_a 0xffffffffc0000010 0x30 [ext4]\n' "${both[@]}" ext4_a+0x8 ext4:ext4_a
writes 'ext4_a+0x30 -\nnfs:ext4_a -\nnothing -\n+0x1 -\ndo_one+0x1f00 -\n' "${both[@]}" ext4_a+0x30 nfs:ext4_a nothing +0x1 do_one+0x1f00
writes '-:do_one+0xFF 0xffffffff810001ff 0x1f00\n-:ext4_a -\n' --kallsyms basic.kallsyms -:do_one+0xFF -:ext4_a
writes 'do_one 0xffffffff81000100 0x1f00\n-:do_two -\n--kernel -\n' --kallsyms=basic.kallsyms do_one -:do_two --kernel
writes '-:do_one 0xffffffff81000100 0x1f00\n' --kallsyms basic.kallsyms -- -:do_one
writes 'do_one -\n' --kallsyms basic.kallsyms --kernel do_one do_one do_one
writes 'ext4_a+0x8/0x30 [ext4] 0xffffffffc0000018 0x30 [ext4]\next4_a+0x30/0x30 0xffffffffc0000040 0x30 [ext4]\next4_a+0x8/0x20 -\n' "${both[@]}" 'ext4_a+0x8/0x30 [ext4]' ext4_a+0x30/0x30 ext4_a+0x8/0x20
writes 'ext4_a [nfs] -\nvfs [-] -\ndo_one+0x1f00/0x1f00 0xffffffff81002000 0x1f00\n' "${both[@]}" 'ext4_a [nfs]' 'vfs [-]' do_one+0x1f00/0x1f00
writes 'do_one 0xffffffff9b600100 0x1f00\n' "${both[@]}" --offset 0x1a600000 do_one
writes 'do_one -\n' "${both[@]}" --offset 0xffffffffffffffff do_one
writes 'ext4_a+0x31/0x30 -\next4:ext4_a [ext4] -\n' "${both[@]}" ext4_a+0x31/0x30 'ext4:ext4_a [ext4]'
# (no name of a listing has the end of a line, and no file of words)
writes '{"symbol":"a\\u000ab","offset":0}\n{"symbol":"","offset":1}\n' --kallsyms basic.kallsyms --json $'a\nb' +0x1

# faulty STATUS LINE ARGUMENT..: the program fails so, with nothing on standard output
faulty() {
    local want=$1 line=$2 status=0
    shift 2
    "$program" address "$@" >"$work/out" 2>"$work/err" || status=$?
    [ $status = "$want" ] && [ ! -s "$work/out" ] && [ "$(head -n 1 "$work/err")" = "$line" ] || fail "address $*: status $status, $(cat "$work/err")"
}
faulty 1 'latchsym: nowhere: cannot be read (No such file or directory)' --kallsyms nowhere do_one
faulty 1 'latchsym: nowhere: cannot be read (No such file or directory)' --modules nowhere --kallsyms basic.kallsyms do_one
faulty 1 'latchsym: basic.modules: line 1 is not understood' "${both[@]}" --regions basic.modules do_one
faulty 2 'latchsym: bad offset, 0x is missing before 1a600000' --kallsyms basic.kallsyms --offset 1a600000 do_one
faulty 2 'latchsym: bad offset low' --kallsyms basic.kallsyms --offset low do_one
faulty 2 'latchsym: --regions needs --modules' --kallsyms basic.kallsyms --regions regions.regions do_one
faulty 2 'latchsym: --kernel takes two names of symbols, and its END is 0x1' --kallsyms basic.kallsyms --kernel _stext 0x1 do_one
status=0
"$program" address --kallsyms basic.kallsyms >"$work/out" 2>"$work/err" || status=$?
[ $status = 2 ] && [ ! -s "$work/out" ] || fail "no name: status $status"
if [ -e /dev/full ]; then
    faulty_device() { "$program" address --kallsyms basic.kallsyms do_one >/dev/full 2>"$work/err"; }
    status=0
    faulty_device || status=$?
    [ $status = 1 ] && [ "$(cat "$work/err")" = 'latchsym: cannot write (No space left on device)' ] || fail "a full device: status $status"
fi

# what is noted of the listings comes on standard error, and the lines stand
status=0
"$program" address --modules no_end.modules --kallsyms no_end.kallsyms --kernel _stext _end _stext >"$work/out" 2>"$work/err" || status=$?
[ $status = 1 ] && cmp -s "$work/err" no_end.notes && [ "$(cat "$work/out")" = '_stext -' ] || fail "notes: status $status, $(cat "$work/err")"
[ $failed = 0 ] || exit 1

mkdir "$work/run"
listings=()
if [ -r /proc/kallsyms ] && grep -qm 1 '^0*[1-9a-f]' /proc/kallsyms; then
    cat /proc/kallsyms >"$work/machine"
    listings=("$work/machine")
fi
if ! python3 "$top/tests/address/names.py" "$program" "$work/run" "${RUNS:-1000}" "${SEED:-1}" "${listings[@]}"; then
    kept=${TMPDIR:-/tmp}/latchsym-address
    rm -rf "$kept"
    cp -r "$work/run" "$kept"
    echo "address: the input is kept in $kept"
    exit 1
fi
