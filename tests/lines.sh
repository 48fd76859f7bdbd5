#!/usr/bin/env bash
# Lines just inside each grammar and just outside it: each row of the files of tests/lines/ is
# given to the program as a listing, a file of addresses, a script or a trace of its own. A row has
# what is wanted, a tab, and the text as for printf's %b. What is wanted is the cause for which its
# line is skipped, the number of the line that is not understood, the refusal or the note; or `-`
# for none of them. Then come lines of 4096 bytes, which are read, and of one byte more, which are
# not; and listings at size.
set -euo pipefail
. "$(dirname "$0")/lib/program.sh"
build latchsym
rows=$top/tests/lines
cd "$work"
count=0

# ends NAME STATUS ERROR ARGUMENT..: the program ends so, with this on standard error
ends() {
    local name=$1 want=$2 error=$3 status=0
    shift 3
    "$program" "$@" >out 2>err || status=$?
    count=$((count + 1))
    [ $status = "$want" ] && [ "$(cat err)" = "$error" ] || { fail "$name: status $status, $(cat err)"; return 1; }
}

# each_row FILE COMMAND..: the command with what is wanted of each row, whose text is in the file
# text
each_row() {
    local row
    while IFS= read -r row; do
        printf '%b' "${row#*$'\t'}" >text
        "${@:2}" "${row%%$'\t'*}" || fail "$1: $row"
    done <"$rows/$1"
}

# skipped KIND LISTING.. CAUSE: the one line of this kind counts for the cause, or for none
skipped() {
    local kind=$1 cause=${!#}
    "$program" check "${@:2:$#-2}" text >out 2>err || [ $? = 1 ] || return 1
    count=$((count + 1))
    awk -v kind="$kind" -v cause="$cause" '$1 == kind {
        for (i = 1; i < NF; i += 2) if ($i == cause || cause == "-" && $i ~ /^(modules|symbols|stray)$/) sum += $(i + 1); else others += $(i + 1)
    } END { exit sum != 1 || others != 0 }' out
}
: >none
each_row modules skipped modules --kallsyms none --modules
each_row symbols skipped symbols --kallsyms

# understood ARGUMENT.. WANTED: the file text is read, or refused so
understood() {
    local want=${!#}
    case $want in
    -) ends "$want" 0 '' "${@:1:$#-1}" ;;
    refused*) ends "$want" 1 "latchsym: $want" "${@:1:$#-1}" ;;
    *) ends "$want" 1 "latchsym: text: line $want is not understood" "${@:1:$#-1}" ;;
    esac
    [ "$want" = - ] || [ ! -s out ]
}
listings=(--modules none --kallsyms none)
each_row regions understood lookup "${listings[@]}" 0 --regions text
each_row addresses understood lookup "${listings[@]}" --addresses text
each_row scripts understood run "${listings[@]}" --readers 2 text
each_row traces understood trace text

# noted ARGUMENT.. NOTE: what is noted of the file text as a listing
noted() {
    local note=${!#}
    ends "$note" 0 "$([ "$note" = - ] || echo "latchsym: note: text: $note")" lookup "${@:1:$#-1}" 0
}
each_row notes_on_modules noted --kallsyms none --modules text
each_row notes_on_symbols noted --modules none --kallsyms text

# line BEGIN END LENGTH: a line of this many bytes that begins and ends so
line() { printf "%b%0$(($3 - ${#1} - ${#2}))d%s\n" "$1" 0 "$2"; }
for length in 4096 4097; do
    # what is wanted of it as a line of a listing, as line 1 and as line 2
    listed=- first=- second=- end=
    [ $length = 4096 ] || listed=long first=1 second=2 end=7
    line 'a 1 0 - Live 0x1 ' '' $length >text
    skipped modules --kallsyms none --modules $listed || fail "modules of $length bytes"
    line '1 t ' '' $length >text
    skipped symbols --kallsyms $listed || fail "symbols of $length bytes"
    { echo 'latchregions 1'; line '' ' core 1 1' $length; } >text
    understood lookup "${listings[@]}" 0 --regions text $second || fail "regions of $length bytes"
    line '#' '' $length >text
    understood lookup "${listings[@]}" --addresses text $first || fail "addresses of $length bytes"
    line 'load 1 ' '' $length >text
    understood run "${listings[@]}" --readers 1 text $first || fail "a script of $length bytes"
    [ $first = 1 ] || [ "$(head -n 1 out | wc -c)" = 4103 ] || fail "a name of 4089 bytes"
    { echo 'latchtrace 1 halfopen 4'; line '#' '' $length; } >text
    understood trace text $second || fail "a trace of $length bytes"
    { printf 'latchtrace 2 halfopen 4\nbatch 2042 0'; printf ' 7%.0s' $(seq 2042); echo $end; } >text
    understood trace text $second || fail "a batch of $length bytes"
done

# no memory is wanting for many lines of modules, regions and symbols, the last of them first
for many in 17 246 1025 5001 65536; do
    awk -v n=$many 'BEGIN { for (i = n; i > 0; i--) printf "m%d 16 0 - Live 0x%x\n", i, i * 256 }' >modules
    awk -v n=$many 'BEGIN { print "latchregions 1"; for (i = n; i > 0; i--) printf "m%d core %d 16\n", i, i * 256 + 32 }' >regions
    awk -v n=$many 'BEGIN { for (i = n; i > 0; i--) printf "%x t m%d\t[m%d]\n", i * 256 + 40, i, i }' >symbols
    ends "$many modules" 0 '' lookup --modules modules --kallsyms symbols --regions regions 0x128 $((many * 256 + 41)) || continue
    printf '0x128 m1+0x0/0x8 [m1]\n0x%x m%d+0x1/0x8 [m%d]\nmodules %d hidden 0 empty 0 wraps 0 overlap 0 double 0 long 0 malformed 0\nsymbols %d hidden 0 stray 0 long 0 malformed 0\nregions %d stray 0\n' \
        $((many * 256 + 41)) $many $many $many $many $many | cmp -s - out || fail "$many modules: other lines"
done
[ $failed = 1 ] || echo "lines: $count runs"
exit $failed
