#!/usr/bin/env bash
# Compares what `latchsym lookup --modules-from-symbols` writes with what a plain slow program finds
# by the definitions: over 2,000 random listings of a few lines with a fixed seed (RUNS and SEED set
# others), and over the symbols of this machine where their addresses are shown. Needs python3.
set -eu
. "$(dirname "$0")/lib/program.sh"
command -v python3 >/dev/null || { echo "symbols_alone: python3 is not installed"; exit 1; }
build latchsym
mkdir "$work/run"
listings=()
if [ -r /proc/kallsyms ] && grep -qm 1 '^0*[1-9a-f]' /proc/kallsyms; then
    cat /proc/kallsyms >"$work/machine"
    listings=("$work/machine")
fi
if ! python3 "$top/tests/symbols_alone/expected.py" "$program" "$work/run" "${RUNS:-2000}" "${SEED:-1}" "${listings[@]}"; then
    kept=${TMPDIR:-/tmp}/latchsym-symbols-alone
    rm -rf "$kept"
    cp -r "$work/run" "$kept"
    echo "symbols_alone: the input and the wanted lines are kept in $kept"
    exit 1
fi
