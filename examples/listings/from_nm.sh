#!/usr/bin/env bash
# Writes a listing of symbols in the form of /proc/kallsyms from the files of a kernel's build: the
# symbols of System.map, and those of each module's text, at the address that it was loaded to. That is
# in the last word of its line of /proc/modules, or in /sys/module/NAME/sections/.text. OFFSET is how
# far the kernel was moved at boot.
#
#     from_nm.sh [--offset OFFSET] SYSTEM.MAP [MODULE.ko ADDRESS]..
#
# Numbers are hexadecimal with 0x. Needs nm.
set -euo pipefail
usage='usage: from_nm.sh [--offset OFFSET] SYSTEM.MAP [MODULE.ko ADDRESS]..'
if [ "${1-}" = --help ]; then
    echo "$usage"
    exit
fi
offset=0
if [ "${1-}" = --offset ]; then
    offset=$2
    shift 2
fi
[ $(($# % 2)) = 1 ] || { echo "$usage" >&2; exit 2; }

# moved DISTANCE SUFFIX: lines of address, letter and name, so much higher and with this behind
moved() {
    local address letter name
    while read -r address letter name; do
        printf '%016x %s %s%s\n' $((16#$address + $1)) "$letter" "$name" "$2"
    done
}

moved "$offset" '' <"$1"
shift
while [ $# -gt 0 ]; do
    name=$(basename "$1")
    name=${name%%.ko*}
    nm --format=sysv --defined-only "$1" |
        awk -F '|' '$7 ~ /^\.text *$/ { gsub(/ /, ""); print $2, $3, $1 }' |
        moved "$2" $'\t'"[${name//-/_}]"
    shift 2
done
