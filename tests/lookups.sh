#!/usr/bin/env bash
# Looks addresses up in the listings of examples/listings/, and compares what is written with the
# lines beside them; cuts listings at each byte and adds the counts up; reads the listings of this
# machine; and tries what may be wrong with the command line and the files.
set -euo pipefail
. "$(dirname "$0")/lib/program.sh"
build latchsym
cd "$top/examples/listings"

for modules in *.modules; do
    name=${modules%.modules}
    status=0
    regions=()
    [ ! -e "$name.regions" ] || regions=(--regions "$name.regions")
    # shellcheck disable=SC2046
    "$program" lookup --modules "$modules" --kallsyms "$name.kallsyms" "${regions[@]}" $(cat "$name.addresses") >"$work/out" 2>"$work/err" || status=$?
    notes=/dev/null
    [ ! -e "$name.notes" ] || notes=$name.notes
    [ $status = 0 ] && cmp -s "$work/err" "$notes" || fail "$name: status $status, $(cat "$work/err")"
    cmp -s "$work/out" "$name.expected" || fail "$name: other lines than $name.expected"
done

# noted LINES ARGUMENT..: the lookup succeeds, and these lines are on standard error
noted() {
    local lines=$1 status=0
    shift
    "$program" lookup "$@" >"$work/out" 2>"$work/err" || status=$?
    [ $status = 0 ] && printf "$lines" | cmp -s - "$work/err" || fail "lookup $*: status $status, $(cat "$work/err")"
}
symbols=(--modules empty.modules --kallsyms basic.kallsyms)
noted '' "${symbols[@]}" 0
noted '' --modules empty.modules --kallsyms empty.kallsyms 0
noted 'latchsym: note: empty.kallsyms: is empty\n' --kallsyms empty.kallsyms 0
noted 'latchsym: note: empty.kallsyms: is empty\n' --kallsyms empty.kallsyms --kernel a b 0
noted '' --modules no_end.modules --kallsyms no_end.kallsyms --kernel _stext _etext 0
noted 'latchsym: note: basic.kallsyms: has no symbol _text\n' "${symbols[@]}" --kernel _text _end 0
noted 'latchsym: note: basic.kallsyms: has no symbol _text\n' "${symbols[@]}" --kernel _text _etext 0
noted 'latchsym: note: basic.kallsyms: has no symbol _etext\n' "${symbols[@]}" --kernel _stext _etext 0
noted 'latchsym: note: basic.modules: no symbol lies in a listed module; are both listings of one boot?\n' --modules basic.modules --kallsyms empty.kallsyms 0
noted 'latchsym: note: packed.modules: is compressed by gzip; unpack it first\nlatchsym: note: crlf.kallsyms: lines end in CR LF\n' --modules packed.modules --kallsyms crlf.kallsyms 0
# notes MODULES KALLSYMS LINES ARGUMENT..: a lookup in the listings that printf makes of these notes
# these lines, of `modules` or of `kallsyms`; by the symbols alone where MODULES is -
notes() {
    local options=(--modules "$work/modules" --kallsyms "$work/kallsyms") lines=$3
    [ "$1" != - ] || options=(--modules-from-symbols --kallsyms "$work/kallsyms")
    printf "${1#-}" >"$work/modules"
    printf "$2" >"$work/kallsyms"
    shift 3
    notes_on_files "$lines" "${options[@]}" "$@" 1
}
# notes_on_files LINES ARGUMENT..: the same of the listings that are there
notes_on_files() {
    local lines=$1
    shift
    noted "$(printf "$lines" | sed "s,^,latchsym: note: $work/,; s,\$,\\\\n," | tr -d '\n')" "$@"
}
m='a 4096 0 - Live 0x3000\n'
s='1000 T _stext\n2000 T _end\n3010 t a_run\t[a]\n'
packed='is compressed by gzip; unpack it first\n'
hidden='every address is 0; read it as root (kernel.kptr_restrict)\n'
ends='lines end in CR LF\n'
other_boot='no symbol lies in a listed module; are both listings of one boot?\n'
no_start='has no symbol _stext\n'
no_end='has no symbol _end; try --kernel _stext _einittext\n'
notes "$m" "$s" ''
notes '' "$s" ''
notes '' '' ''
# (a kernel whose symbols are not listed, and lines that are skipped for other causes alone)
notes "$m" '3010 t a_run\t[a]\n' ''
form_m='no line is of the form of /proc/modules\n'
form_s='no line is of the form of /proc/kallsyms\n'
notes 'nonsense\n' 'nonsense\n' "modules: ${form_m}kallsyms: $form_s"
notes '\n' "$s" "modules: $form_m"
# (compressed by xz and by zstd)
notes '' '\375\67zXZ\0\n' "kallsyms: $form_s"
notes '\50\265\57\375' "$s" "modules: $form_m"
# (in UTF-16 of either order; one byte of it, and such bytes behind others)
wide='is UTF-16; convert it first\n'
notes - '\377\3761\0 \0t\0' "kallsyms: $wide"
notes '' '\376\377' "kallsyms: $wide"
notes '\376\377\0a' "$s" "modules: $wide"
notes - '\377' "kallsyms: $form_s"
notes - '\376\376\377' "kallsyms: $form_s"
notes 'nonsense\nm 0 0 - Live 0x3000\n' "$s" ''
notes - 'nonsense\n1000 t a\t[a]\n' ''
notes '\037\213\010\n' "$s" "modules: $packed"
notes '' '\037\213' "kallsyms: $packed"
notes '' '\037' "kallsyms: $form_s"
notes 'a 4096 0 - Live 0x0000000000000000\nnonsense\nb 0 0 - Live 0x0\n' "$s" "modules: $hidden"
notes '' '0000000000000000 T _stext\n\n0000000000000000 t a_run\t[a]\n' "kallsyms: $hidden"
# (one line that is shown, if it is of no use)
notes 'a 4096 0 - Live 0x0\nb 0 0 - Live 0x3000\n' "$s" ''
notes '' '0 T _stext\n3010 t a_run\t[a]\n' ''
notes "$s" "$m" 'modules: looks like a listing of symbols\nkallsyms: looks like a listing of modules\n'
notes '\nnonsense\n0 T _stext\n' "$s" 'modules: looks like a listing of symbols\n'
# (a module that is listed is of use, whatever stands before it)
notes '0 T _stext\na 4096 0 - Live 0x3000\n' "$s" ''
notes 'a 4096 0 - Live 0x3000\r\n' "$s" "modules: $ends"
notes '' '1000 T _stext\r\n2000 T _end\r\n' "kallsyms: $ends"
notes '' 'nonsense\n1000 T _stext\r\n' "kallsyms: $no_start"
notes '' '1000 T _text\n2000 T _end\n' "kallsyms: $no_start"
notes '' '1000 T _text\n' "kallsyms: $no_start"
notes '' '1000 T _stext\n2000 T _etext\n' "kallsyms: $no_end"
notes '' '1000 T _stext\n2000 T _etext\n' '' --kernel _stext _etext
# (one of a module is none of the kernel itself; both may be there in another order)
notes '' '1000 T _stext\n2000 T _end\t[a]\n' "kallsyms: $no_end"
notes '' '2000 T _stext\n1000 T _end\n' ''
notes 'a 4096 0 - Live 0x5000\n' "$s" "modules: $other_boot"
notes 'b 4096 0 - Live 0x3000\n' "$s" "modules: $other_boot"
notes 'b 4096 0 - Live 0x5000\na 4096 0 - Live 0x3000\n' "$s" ''
# (a module that is left out since its region meets that of the kernel, or of one before it)
overlap='modules overlap, as sizes do from Linux 6.4 on; leave --modules out\n'
notes 'a 4096 0 - Live 0x1000\n' "$s" "modules: $overlap"
notes 'b 4096 0 - Live 0x3000\na 4096 0 - Live 0x3800\n' "$s"'3020 t b_run\t[b]\n' "modules: $overlap"
notes 'a 4096 0 - Live 0x3000\nb 4096 0 - Live 0x3800\n' "$s" ''
notes 'a 4096 0 - Live 0x3000\na 4096 0 - Live 0x3800\n' "$s" ''
notes - "$s" ''
notes - '' 'kallsyms: is empty\n'
notes - '0 T _stext\n0 t a_run\t[a]\n' "kallsyms: $hidden"
notes - "$m" 'kallsyms: looks like a listing of modules\n'
notes - '1000 T _stext\n1800 T run\n' 'kallsyms: has no symbol _etext\n'
notes - '1800 T run\n2000 T _end\n' "kallsyms: $no_start"
notes - '1000 T _stext\n1800 T run\n2000 T _end\n' 'kallsyms: has no symbol other\n' --kernel run other

# Parts of a listing that stand far apart. apart BYTES PART..: what printf makes of these parts, with
# a line of so many bytes between any two
apart() {
    local bytes=$1 between='' part
    shift
    for part; do
        [ -z "$between" ] || { head -c "$bytes" /dev/zero | tr '\0' x; echo; }
        printf "$part"
        between=yes
    done
}
block=1048576  # more than is read at once
for bytes in 5000 600000 $((block - 59)); do
    apart $bytes 'ffffffffc0000010 t ext4_a\t[ext4]\nffffffff81000100 T do_one\n' \
        'ffffffff81000000 T _stext\nffffffffc0000010 t ext4_b\t[ext4]\n' \
        'ffffffffc0000040 T ext4_c\t[ext4]\n0 t hidden\nffffffff81000050 T do_none\n' \
        'ffffffff81002000 B _end\nffffffffc0005000 t far\t[ext4]\n' \
        'ffffffffc0000030 t ext4_late\t[ext4]' >"$work/kallsyms"
    noted '' --modules basic.modules --kallsyms "$work/kallsyms" 0xffffffffc0000018 0xffffffffc0000038 0xffffffffc0000fff \
        0xffffffffc0000008 0xffffffff81000008 0xffffffff81000108 0xffffffff81002000
    cmp -s "$work/out" - <<'END' || fail "parts with $bytes bytes between: $(cat "$work/out")"
0xffffffffc0000018 ext4_a+0x8/0x20 [ext4]
0xffffffffc0000038 ext4_late+0x8/0x10 [ext4]
0xffffffffc0000fff ext4_c+0xfbf/0xfc0 [ext4]
0xffffffffc0000008 ? [ext4]
0xffffffff81000008 _stext+0x8/0x50
0xffffffff81000108 do_one+0x8/0x1f00
0xffffffff81002000 -
modules 1 hidden 0 empty 0 wraps 0 overlap 0 double 0 long 0 malformed 0
symbols 7 hidden 1 stray 2 long 4 malformed 0
END
done
# names that are long, so that few lines take several blocks
awk 'BEGIN {
    print "1000 T _stext"
    for (i = 0; i < 24000; i++) printf "%x T s%d_of_a_name_that_is_long_enough_for_a_listing_of_several_blocks_of_few_lines_each\n", 4096 + i * 16, i
    print "ffffff T _end"
}' >"$work/kallsyms"
for i in 1 9000 12345 23998; do
    noted '' --modules empty.modules --kallsyms "$work/kallsyms" $((4099 + 16 * i))
    [ "$(sed "1s,_of.*_each+,+," "$work/out")" = "$(printf '0x%x s%d+0x3/0x10\nmodules 0 hidden 0 empty 0 wraps 0 overlap 0 double 0 long 0 malformed 0\nsymbols 24001 hidden 0 stray 1 long 0 malformed 0' $((4099 + 16 * i)) $i)" ] ||
        fail "long names: $(cat "$work/out")"
done
# blocks_note LINES PART..: of these parts, a block apart, these lines are noted
blocks_note() {
    local lines=$1
    shift
    printf "$m" >"$work/modules"
    apart $block "$@" >"$work/kallsyms"
    notes_on_files "$lines" --modules "$work/modules" --kallsyms "$work/kallsyms" 0x1008
}
blocks_note '' '3010 t a\t[a]\n' '2000 T _end\n' '1000 T _stext\n'
blocks_note "kallsyms: $no_end" '1000 T _stext\n' '1000 T b\n' '3010 t a\t[a]\n'
blocks_note "modules: ${other_boot}kallsyms: $no_start" '4000 t a\t[a]\n' '1 T b\n' '2000 T _end\n'
blocks_note "modules: ${other_boot}kallsyms: $hidden" '0 T _stext\n' '0 T _end\n' '0 t a\t[a]\n'
blocks_note "modules: ${other_boot}kallsyms: looks like a listing of modules\n" 'x\n' 'a 1 0 - Live 0x1\n' '1 t b\t[b]\n'

# a status and an output that cannot be told of are no fault
if [ -e /dev/full ]; then
    status=0
    "$program" lookup --modules hidden.modules --kallsyms hidden.kallsyms $(cat hidden.addresses) >"$work/out" 2>/dev/full || status=$?
    [ $status = 0 ] && cmp -s "$work/out" hidden.expected || fail "notes on a full device: status $status"
fi

# adds_up MODULES KALLSYMS: the counts of each listing add up to the number of its lines
adds_up() {
    local status=0
    "$program" lookup --modules "$1" --kallsyms "$2" 0 >"$work/out" 2>"$work/err" || status=$?
    [ $status = 0 ] || return 1
    awk -v modules="$(awk 'END { print NR }' "$1")" -v symbols="$(awk 'END { print NR }' "$2")" '
        /^modules / { for (i = 2; i <= NF; i += 2) modules -= $i }
        /^symbols / { for (i = 2; i <= NF; i += 2) symbols -= $i }
        END { exit modules != 0 || symbols != 0 }' "$work/out"
}
for listing in modules kallsyms; do
    bytes=$(wc -c <basic.$listing)
    for end in $(seq 0 "$bytes"); do
        cp basic.modules basic.kallsyms "$work/"
        head -c "$end" basic.$listing >"$work/basic.$listing"
        adds_up "$work/basic.modules" "$work/basic.kallsyms" || fail "$listing cut at byte $end: the counts do not add up"
    done
done
if [ -r /proc/modules ] && [ -r /proc/kallsyms ]; then
    cat /proc/modules >"$work/modules"
    cat /proc/kallsyms >"$work/kallsyms"
    adds_up "$work/modules" "$work/kallsyms" || fail "the listings of this machine: the counts do not add up"
fi

# writes NAME ARGUMENT..: these arguments write the lines of NAME.expected
writes() {
    local name=$1 status=0
    shift
    "$program" lookup "$@" >"$work/out" 2>"$work/err" || status=$?
    [ $status = 0 ] && [ ! -s "$work/err" ] || fail "lookup $*: status $status, $(cat "$work/err")"
    cmp -s "$work/out" "$name.expected" || fail "lookup $*: other lines than $name.expected"
}

# addresses of a file are those of the command line, or come after them; `-` is the standard input
basic=(--modules basic.modules --kallsyms basic.kallsyms)
head -n 2 basic.addresses >"$work/first"
{ printf '# the others\n\n'; tail -n +3 basic.addresses; } >"$work/rest"
writes basic "${basic[@]}" --addresses basic.addresses
writes basic "${basic[@]}" --addresses - <basic.addresses
# shellcheck disable=SC2046
writes basic "${basic[@]}" --addresses "$work/rest" $(cat "$work/first")
# shellcheck disable=SC2046
writes basic $(cat "$work/first") --addresses - "${basic[@]}" <"$work/rest"
writes regions --modules regions.modules --kallsyms regions.kallsyms --regions regions.regions --addresses regions.addresses
printf '#\n' >"$work/none"
"$program" lookup "${basic[@]}" --addresses "$work/none" | cmp -s - <(tail -n 2 basic.expected) || fail "a file without an address"
"$program" lookup "${basic[@]}" --addresses /dev/null | cmp -s - <(tail -n 2 basic.expected) || fail "an empty file of addresses"
# 250,000 addresses, by words that together pass for one command line, all in one module
printf 'm 1000000 0 - Live 0x1000\n' >"$work/wide"
wide=(--modules "$work/wide" --kallsyms empty.kallsyms)
awk 'BEGIN { for (i = 0; i < 250000; i++) print 4096 + i }' >"$work/numbers"
# shellcheck disable=SC2046
(ulimit -s unlimited && "$program" lookup "${wide[@]}" $(cat "$work/numbers")) >"$work/given" 2>"$work/err" || fail "250000 addresses of the command line: status $?"
"$program" lookup "${wide[@]}" --addresses "$work/numbers" 2>"$work/err" | cmp -s - "$work/given" || fail "250000 addresses of a file"
[ "$(grep -c ' ? \[m\]$' "$work/given")" = 250000 ] && [ "$(wc -l <"$work/given")" = 250002 ] || fail "250000 addresses of the command line"

# the names that bound the kernel itself, in a listing of symbols without the usual ones
sed 's/_end$/_etext/' basic.kallsyms >"$work/etext.kallsyms"
sed 's/_stext$/first/' "$work/etext.kallsyms" >"$work/first.kallsyms"
writes basic --modules basic.modules --kallsyms "$work/etext.kallsyms" --kernel _stext _etext --addresses basic.addresses
writes basic --modules basic.modules --kallsyms "$work/first.kallsyms" --addresses basic.addresses --kernel first _etext
writes basic "${basic[@]}" --kernel _stext _end --addresses basic.addresses
for names in "_stext _end" "_etext _stext" "_stext _etex" "_stext _etext_"; do
    # shellcheck disable=SC2086
    "$program" lookup --modules basic.modules --kallsyms "$work/etext.kallsyms" --kernel $names 0xffffffff81000108 2>"$work/err" \
        | head -n 1 | cmp -s - <(echo '0xffffffff81000108 -') || fail "a kernel between $names"
done

# return addresses, of which one is the first address of the next symbol; addresses of a kernel that
# was moved; and both
lines() {
    local want=$1
    shift
    "$program" lookup "${basic[@]}" "$@" | head -n -2 | cmp -s - <(printf "%b" "$want") || fail "lookup $*: other lines"
}
lines '0xffffffffc0000040 ext4_a+0x30/0x30 [ext4]\n0x0 -\n0xffffffff81002000 do_one+0x1f00/0x1f00\n' --callers 0xffffffffc0000040 0 0xffffffff81002000
lines '0xffffffffc0001058 ext4_c+0x18/0xfc0 [ext4]\n0xfff -\n' --offset 0x1000 0xffffffffc0001058 0xfff
lines '0xffffffffc0001040 ext4_a+0x30/0x30 [ext4]\n0x1000 -\n' --offset 4096 --callers 0xffffffffc0001040 4096
"$program" lookup "${basic[@]}" --no-counts --addresses basic.addresses | cmp -s - <(head -n -2 basic.expected) || fail "--no-counts"
"$program" lookup "${basic[@]}" --no-counts --addresses /dev/null >"$work/out" && [ ! -s "$work/out" ] || fail "--no-counts without an address"
"$program" lookup "${basic[@]}" --json --no-counts 0xffffffff81000108 0 | cmp -s - <(printf '{"address":"0xffffffff81000108","symbol":"do_one","offset":8,"size":7936}\n{"address":"0x0"}\n') || fail "--json"
"$program" --version | cmp -s - <(echo 'latchsym 1.3.0') || fail "--version"
"$program" --help | grep -q 'hold an address' || fail "--help says not what the program is for"

# a line of 4096 bytes is read, and one byte more makes it long
printf 'm 1 0 - Live 0x1000 %04076d\n' 0 >"$work/whole"
printf 'm 1 0 - Live 0x1000 %04077d\n' 0 >"$work/long"
"$program" lookup --modules "$work/whole" --kallsyms empty.kallsyms 0x1000 2>"$work/err" | head -n 2 | cmp -s - <(printf '0x1000 ? [m]\nmodules 1 hidden 0 empty 0 wraps 0 overlap 0 double 0 long 0 malformed 0\n') || fail "a line of 4096 bytes"
"$program" lookup --modules "$work/long" --kallsyms empty.kallsyms 0x1000 2>"$work/err" | head -n 2 | cmp -s - <(printf '0x1000 -\nmodules 0 hidden 0 empty 0 wraps 0 overlap 0 double 0 long 1 malformed 0\n') || fail "a line of 4097 bytes"

# a table has 65536 nodes at most
awk 'BEGIN { for (i = 1; i <= 65537; i++) printf "m%d 4096 0 - Live 0x%x\n", i, i * 4096 }' >"$work/more"
head -n 65536 "$work/more" >"$work/most"
"$program" lookup --modules "$work/most" --kallsyms empty.kallsyms 0x10000fff 2>"$work/err" | head -n 2 | cmp -s - <(printf '0x10000fff ? [m65536]\nmodules 65536 hidden 0 empty 0 wraps 0 overlap 0 double 0 long 0 malformed 0\n') || fail "65536 modules"

# the symbols alone say where modules lie: two take turns, one has no line in /proc/modules
alone=(--modules-from-symbols --kallsyms alone.kallsyms)
writes alone "${alone[@]}" --addresses alone.addresses
writes alone "${alone[@]}" --kernel _stext _etext --addresses alone.addresses
"$program" lookup "${alone[@]}" --callers --offset 0x10 0xffffffffc0001010 | head -n 1 |
    cmp -s - <(echo '0xffffffffc0001010 ext4_a+0x1000/0x1000 [ext4]') || fail "return addresses by the symbols alone"
# they are as many as a table has nodes, the kernel among them, and one more
awk 'BEGIN { print "1000 T _stext\n2000 T _end"; for (i = 1; i <= 65536; i++) printf "%x t run\t[m%d]\n", 65536 + i * 4096, i }' >"$work/owners"
head -n 65537 "$work/owners" >"$work/few"
"$program" lookup --modules-from-symbols --kallsyms "$work/few" 0x1000f000 2>"$work/err" | cmp -s - <(printf '0x1000f000 run+0x0/0x1000 [m65535]\nmodules 65535 regions 65535\nsymbols 65536 hidden 0 stray 1 long 0 malformed 0\n') || fail "65536 regions by the symbols alone"
# one module may have them all
{
    printf '1000 T _stext\n2000 T _end\n'
    for ((i = 1; i <= 60000; i++)); do printf '%x t run\t[m]\n' $((i * 1048577)); done
} >"$work/parts"
"$program" lookup --modules-from-symbols --kallsyms "$work/parts" 0x100000 0x100001 0x100fff 0x101000 2>"$work/err" | cmp -s - <(printf '0x100000 -\n0x100001 run+0x0/0xfff [m]\n0x100fff run+0xffe/0xfff [m]\n0x101000 -\nmodules 1 regions 60000\nsymbols 60001 hidden 0 stray 1 long 0 malformed 0\n') || fail "60000 regions of one module"
# the size of a is the sum of memories that lie apart, and reaches into b: by the listing of modules
# an address of b is told as a's, and by the symbols alone as b's
printf 'a 36864 0 - Live 0x10000\nb 4096 0 - Live 0x14000\n' >"$work/sums"
printf '10000 t a_run\t[a]\n14000 t b_run\t[b]\n18000 t a_data\t[a]\n' >"$work/sums.kallsyms"
"$program" lookup --modules "$work/sums" --kallsyms "$work/sums.kallsyms" 0x14010 2>"$work/err" | cmp -s - <(printf '0x14010 a_run+0x4010/0x8000 [a]\nmodules 1 hidden 0 empty 0 wraps 0 overlap 1 double 0 long 0 malformed 0\nsymbols 2 hidden 0 stray 1 long 0 malformed 0\n') || fail "sums that overlap"
"$program" lookup --modules-from-symbols --kallsyms "$work/sums.kallsyms" 0x14010 0x18010 | cmp -s - <(printf '0x14010 b_run+0x10/0x1000 [b]\n0x18010 a_data+0x10/0x1000 [a]\nmodules 2 regions 3\nsymbols 3 hidden 0 stray 0 long 0 malformed 0\n') || fail "sums that overlap, by the symbols alone"
if [ -r /proc/kallsyms ] && ! head -n 1 /proc/kallsyms | grep -q '^0* '; then
    "$program" lookup --modules-from-symbols --kallsyms /proc/kallsyms "0x$(grep -m 1 ' _stext$' /proc/kallsyms | cut -d' ' -f1)" >"$work/out" 2>"$work/err" && [ ! -s "$work/err" ] ||
        fail "the symbols of this machine alone: $(cat "$work/err")"
    head -n 1 "$work/out" | grep -q '+0x0/' || fail "the symbols of this machine alone: $(head -n 1 "$work/out")"
    # an address alone is enough, as the kernel writes it
    "$program" lookup "$(grep -m 1 ' _stext$' /proc/kallsyms | cut -d' ' -f1)" 2>"$work/err" | cmp -s - "$work/out" ||
        fail "an address alone: $(cat "$work/err")"
fi
noted 'latchsym: note: basic.modules: looks like a listing of modules\n' --modules-from-symbols --kallsyms basic.modules 1
noted 'latchsym: note: hidden.kallsyms: every address is 0; read it as root (kernel.kptr_restrict)\n' --modules-from-symbols --kallsyms hidden.kallsyms 1
printf '1000 T _stext\n1100 T run\n' >"$work/endless"
noted "latchsym: note: $work/endless: has no symbol _etext\n" --modules-from-symbols --kallsyms "$work/endless" 1
noted "latchsym: note: $work/endless: has no symbol _end; try --kernel _stext _einittext\n" --modules-from-symbols --kallsyms "$work/endless" --kernel _stext _end 1
noted '' --modules-from-symbols --kallsyms no_end.kallsyms 1

# 400000 symbols of the kernel and 600000 of a module, a listed symbol in no order of addresses: of
# each the first, some within, and the last
echo 'm 9600000 0 - Live 0xffffffffc0000000' >"$work/million.modules"
awk 'BEGIN {
    print "ffffffff80000000 T _stext\nffffffff80000001 t k0"
    for (j = 1; j < 399999; j++) { i = j * 7919 % 399999; printf "ffffffff%08x t k%d\n", 2147483648 + 16 * i, i }
    for (j = 0; j < 600000; j++) { i = j * 7919 % 600000; printf "ffffffff%08x t m%d\t[m]\n", 3221225472 + 16 * i, i }
    printf "ffffffff%08x T _end\n", 2147483648 + 16 * 400000
}' >"$work/million.kallsyms"
for i in 1 32767 65536 131072 262143 262144 300001 399998; do
    printf '0x%x k%d+0x5/0x%x\n' $((0xffffffff80000005 + 16 * i)) $i $((i == 399998 ? 32 : 16))
done >"$work/million.expected"
for i in 0 1 65535 131071 262144 524287 524288 599998 599999; do
    printf '0x%x m%d+0x5/0x10 [m]\n' $((0xffffffffc0000005 + 16 * i)) $i
done >>"$work/million.expected"
echo "0x$(printf %x $((0xffffffffc0000000 + 9600000))) -" >>"$work/million.expected"
cut -d' ' -f1 "$work/million.expected" >"$work/million.addresses"
printf 'modules 1 hidden 0 empty 0 wraps 0 overlap 0 double 0 long 0 malformed 0\nsymbols 1000000 hidden 0 stray 1 long 0 malformed 0\n' >>"$work/million.expected"
"$program" lookup --modules "$work/million.modules" --kallsyms "$work/million.kallsyms" --addresses "$work/million.addresses" >"$work/out" ||
    fail "1000000 symbols: status $?"
cmp "$work/out" "$work/million.expected" || fail "1000000 symbols"

# refused STATUS LINE ARGUMENT..: nothing on standard output, this line on standard error (any,
# where it is empty), and this status
refused() {
    local want=$1 line=$2 status=0
    shift 2
    "$program" lookup "$@" >"$work/out" 2>"$work/err" || status=$?
    [ $status = "$want" ] && [ ! -s "$work/out" ] && [ -s "$work/err" ] || fail "lookup $*: status $status in place of $want"
    [ -z "$line" ] || [ "$(cat "$work/err")" = "latchsym: $line" ] || fail "lookup $*: $(cat "$work/err")"
}
refused 1 "refused 10" --modules "$work/more" --kallsyms empty.kallsyms 1
for offset in '' x 0x 18446744073709551616; do
    refused 2 "bad offset $offset" "${basic[@]}" 1 --offset "$offset"
done
refused 2 "--kernel takes two names of symbols, and its END is 0x10" "${basic[@]}" --kernel _stext 0x10
refused 1 "no_such: cannot be read" --modules no_such --kallsyms basic.kallsyms 1
refused 1 "no_such: cannot be read" --modules basic.modules --kallsyms no_such 1
refused 1 "no_such: cannot be read" --modules no_such --kallsyms no_other 1
refused 1 ".: cannot be read" --modules . --kallsyms no_such 1
refused 1 "no_such: cannot be read" --modules no_such --kallsyms . 1
# the listing of regions is read last, and names its first bad line
printf 'latchregions 1\nm core 0 1\n' >"$work/bad.regions"
printf 'latchregions 2\n' >"$work/other.regions"
: >"$work/none.regions"
{ printf 'latchregions 1\n'; printf 'm core %d 1\n' 1 2 3 4; printf 'm init %d 1\n' 5 6 7 8; } >"$work/eight.regions"
refused 1 "$work/bad.regions: line 2 is not understood" --modules regions.modules --kallsyms regions.kallsyms --regions "$work/bad.regions" 1
refused 1 "$work/other.regions: line 1 is not understood" --modules regions.modules --kallsyms regions.kallsyms --regions "$work/other.regions" 1
refused 1 "$work/none.regions: line 1 is not understood" --modules regions.modules --kallsyms regions.kallsyms --regions "$work/none.regions" 1
refused 1 "refused 14" --modules regions.modules --kallsyms regions.kallsyms --regions "$work/eight.regions" 1
refused 1 "no_such: cannot be read" --modules regions.modules --kallsyms regions.kallsyms --regions no_such 1
refused 1 ".: cannot be read" --modules regions.modules --kallsyms . --regions no_such 1
refused 2 "" --modules regions.modules --kallsyms regions.kallsyms --regions regions.regions --regions regions.regions 1
# the file of addresses is read after the listings, and names its first bad line
printf '16\n# a comment\n0x\n16x\n' >"$work/bad.addresses"
printf '16\n 17\n' >"$work/blank.addresses"
printf '%04097d\n' 1 >"$work/long.addresses"
printf '1 2\n' >"$work/two.addresses"
printf '1\n18446744073709551616\n1\nx\n' >"$work/great.addresses"
refused 1 "$work/bad.addresses: line 3 is not understood" "${basic[@]}" --addresses "$work/bad.addresses"
refused 1 "$work/two.addresses: line 1 is not understood" "${basic[@]}" --addresses "$work/two.addresses"
refused 1 "$work/great.addresses: line 2 is not understood" "${basic[@]}" --addresses "$work/great.addresses" 1
refused 1 "$work/blank.addresses: line 2 is not understood" "${basic[@]}" --addresses "$work/blank.addresses" 1
refused 1 "$work/long.addresses: line 1 is not understood" "${basic[@]}" --addresses "$work/long.addresses"
refused 1 "-: line 3 is not understood" "${basic[@]}" --addresses - <"$work/bad.addresses"
refused 1 "no_such: cannot be read" "${basic[@]}" --addresses no_such
refused 1 ".: cannot be read" "${basic[@]}" --addresses . 1
refused 1 "-: cannot be read" "${basic[@]}" --addresses - <.
refused 1 "no_such: cannot be read" --modules basic.modules --kallsyms no_such --addresses "$work/bad.addresses"
refused 1 "$work/other.regions: line 1 is not understood" "${basic[@]}" --regions "$work/other.regions" --addresses no_such
refused 2 "bad address 16x" --modules no_such --kallsyms no_such --addresses no_such 16x
refused 2 "" "${basic[@]}" --addresses basic.addresses --addresses basic.addresses
refused 2 "" "${basic[@]}" --kernel a b --kernel a b 1
refused 2 "" "${basic[@]}" 1 --kernel a
refused 2 "" "${basic[@]}" 1 --kernel
refused 2 "" "${basic[@]}" 1 --addresses
refused 2 "bad address 16x" --modules no_such --kallsyms no_such 16 16x y
refused 2 "bad address 18446744073709551616" --modules no_such --kallsyms no_such 18446744073709551616
refused 2 "no address is given" --modules no_such --kallsyms no_such
refused 2 "no address is given" "${basic[@]}" --kernel _stext _etext
refused 2 "" --modules 1
refused 2 "--regions needs --modules" --kallsyms basic.kallsyms --regions regions.regions 1
refused 2 "--modules-from-symbols cannot be used with --modules or --regions" "${alone[@]}" --modules basic.modules 1
refused 2 "--modules-from-symbols cannot be used with --modules or --regions" "${alone[@]}" --regions regions.regions 1
refused 2 "--kernel takes two names of symbols, and its END is 0x10" "${alone[@]}" --kernel _stext 0x10
refused 2 "no address is given" "${alone[@]}"
refused 2 "bad address 16x" "${alone[@]}" 16x
refused 1 "refused 10" --modules-from-symbols --kallsyms "$work/owners" 1
refused 1 "no_such: cannot be read" --modules-from-symbols --kallsyms no_such --addresses no_other
refused 1 "no_such: cannot be read" "${alone[@]}" --addresses no_such 1
refused 1 "-: line 3 is not understood" "${alone[@]}" --addresses - <"$work/bad.addresses"
refused 2 "" --modules basic.modules --kallsyms basic.kallsyms --modules basic.modules 1
refused 2 "" --modules basic.modules --kallsyms basic.kallsyms --symbols x 1
# a listing may be a pipe by a name (devices.sh shows that each file is opened once, which that needs)
mkfifo "$work/pipe"
cat basic.kallsyms >"$work/pipe" 2>"$work/err" &
writer=$!
timeout 20 "$program" lookup --kallsyms "$work/pipe" 0xffffffff81000108 >"$work/out" || fail "a listing in a pipe: status $?"
head -n 1 "$work/out" | grep -q '^0xffffffff81000108 do_one+0x8/' || fail "a listing in a pipe: $(cat "$work/out")"
kill $writer 2>"$work/err" || true
wait $writer || true
if [ -e /dev/full ]; then
    status=0
    "$program" lookup --modules basic.modules --kallsyms basic.kallsyms 1 >/dev/full 2>"$work/err" || status=$?
    [ $status = 1 ] && [ "$(cat "$work/err")" = "latchsym: cannot write" ] || fail "a full device is not reported"
fi
[ $failed = 1 ] || echo "lookups: $(ls ./*.modules | wc -l) listings, and the basic ones cut at each byte"
exit $failed
