#!/usr/bin/env bash
# Reads what `latchsym lookup --json` and `latchsym address --json` write by Python's reader of JSON,
# and compares it with the lines of text for the same addresses and names: for 300 random listings
# (RUNS and SEED set others) whose names have bytes of every kind, by modules that are listed and by
# the symbols alone, with the counts and without. Needs python3.
set -eu
. "$(dirname "$0")/lib/program.sh"
command -v python3 >/dev/null || { echo "json: python3 is not installed"; exit 1; }
build latchsym
mkdir "$work/run"
if ! python3 "$top/tests/json/compared.py" "$program" "$work/run" "${RUNS:-300}" "${SEED:-1}"; then
    kept=${TMPDIR:-/tmp}/latchsym-json
    rm -rf "$kept"
    cp -r "$work/run" "$kept"
    echo "json: the listings are kept in $kept"
    exit 1
fi
