#!/usr/bin/env bash
# Refuses each request for memory of refused_calls in turn, until a run meets no refusal. Each run
# has to write the lines that it writes with ample memory: a call that returns OutOfMemory has
# changed nothing, and comes to the same when it is made once more. Where memory is refused for what
# a call is given, the run ends with `refused 7` after the lines up to there. Between the lines
# `steps begin` and `steps end` no request comes at all. Needs a C compiler and python3.
set -eu
. "$(dirname "$0")/lib/program.sh"
build refused_calls
cc -O1 -shared -fPIC -o "$work/refuse.so" "$top/tests/refusals/refuse.c"

python3 "$top/tests/refusals/calls.py" "$program" "$work/refuse.so"
