#!/usr/bin/env bash
# Runs the program on 10,000 random inputs with a fixed seed (RUNS and SEED set others): bytes,
# lines of the examples with a few bytes changed, lines near the grammars. Each run has to end by
# itself within its time with a status of 0 or 1, with one line on standard error where it is 1 and
# nothing on standard output then; and the counts of a lookup have to add up. Needs a C compiler.
set -eu
. "$(dirname "$0")/lib/program.sh"
build latchsym
cc -O2 -o "$work/random" "$top/tests/random/random.c"
mkdir "$work/inputs"
if ! "$work/random" "$program" "$work/inputs" "${RUNS:-10000}" "${SEED:-1}" \
    "$top"/examples/*/*.{trace,script} "$top"/examples/listings/*.{modules,kallsyms,regions,addresses}; then
    cp -r "$work/inputs" "${TMPDIR:-/tmp}/latchsym-random"
    echo "random: the input is kept in ${TMPDIR:-/tmp}/latchsym-random"
    exit 1
fi
