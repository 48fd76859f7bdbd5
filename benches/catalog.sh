#!/usr/bin/env bash
# How long a large catalog takes to build and a symbol to be found, and the most memory that was
# held: MODULES modules (200), SYMBOLS symbols (2000000) of which a third lie in modules, and
# LOOKUPS lookups (10000000). The lines themselves are part of the memory; a second run with the
# lines alone is not made, since they are given and not built.
set -eu
modules=${1:-200}
symbols=${2:-2000000}
lookups=${3:-10000000}
. "$(dirname "$0")/../tests/lib/program.sh"
build_proved measures

/usr/bin/time -f 'most memory: %M kB' "$program" build "$modules" "$symbols" "$lookups"
