#!/usr/bin/env bash
# How long two listings take to be read, cut into lines and built into a catalog, and the most
# memory that was held: MODULES and KALLSYMS are files in the form of /proc/modules and
# /proc/kallsyms, those of this machine by default.
set -eu
modules=${1:-/proc/modules}
kallsyms=${2:-/proc/kallsyms}
. "$(dirname "$0")/../tests/lib/program.sh"
build_proved measures

/usr/bin/time -f 'most memory: %M kB' "$program" read "$modules" "$kallsyms"
