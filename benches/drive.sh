#!/usr/bin/env bash
# How long the step machine takes over some million events at a table of ITEMS ranges (1000), in
# ROUNDS rounds (500) of an erasure, an insertion and a lookup beside.
set -eu
items=${1:-1000}
rounds=${2:-500}
. "$(dirname "$0")/../tests/lib/program.sh"
build_proved measures

/usr/bin/time -f '%e s, most memory: %M kB' "$program" drive "$items" "$rounds"
