#!/usr/bin/env bash
# tests/try.sh WORD..: runs the program with these words, where you are. Where it is not there, or is
# older than a source, it is built first, without a proof, in two minutes or, after an edit, in one.
. "$(dirname "$0")/lib/program.sh"
build latchsym
"$program" "$@"
