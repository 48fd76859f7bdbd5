#!/usr/bin/env bash
# Compares what `latchsym annotate` writes with what a plain slow program finds by the rules: for the
# logs of examples/logs, for 10,000 random ones with a fixed seed (RUNS and SEED set others), and for
# lines of about the greatest length. Needs python3.
set -eu
. "$(dirname "$0")/lib/program.sh"
command -v python3 >/dev/null || { echo "random_logs: python3 is not installed"; exit 1; }
build latchsym
mkdir "$work/run"
if ! python3 "$top/tests/random_logs/annotated.py" "$program" "$work/run" "${RUNS:-10000}" "${SEED:-1}" "$top/examples/logs"; then
    kept=${TMPDIR:-/tmp}/latchsym-random-logs
    rm -rf "$kept"
    cp -r "$work/run" "$kept"
    echo "random_logs: the input and the wanted log are kept in $kept"
    exit 1
fi
