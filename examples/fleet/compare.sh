#!/usr/bin/env bash
# SPDX-License-Identifier: MIT OR Apache-2.0
# Symbolises the samples of a made-up fleet in one process and on a local cluster of two workers,
# and compares what they write: compare.sh [HOSTS SYMBOLS SAMPLES]. PYTHON names the interpreter.
set -euo pipefail
here=$(cd "$(dirname "$0")" && pwd)
python=${PYTHON:-python3}
"$python" -c 'import dask, distributed' 2>/dev/null || {
    echo 'compare.sh: Dask is not installed (Debian: apt-get install python3-dask python3-distributed)' >&2
    exit 1
}
fleet=$(mktemp -d)
trap 'rm -rf "$fleet"' EXIT
"$python" "$here/make_fleet.py" "$fleet" "${1:-8}" "${2:-100000}" "${3:-1000000}"
cd "$fleet"
# run FOLDER OPTION..: what is written goes to the folder
run() {
    mkdir "$1"
    "$python" "$here/symbolise.py" "${@:2}" "$fleet/listings" "$fleet/$1" "$fleet"/samples/*.csv
}
one=$(run one)
two=$(run two --workers 2)
echo "one process: $one"
echo "two workers: $two"
cat one/*.csv >one.csv
cat two/*.csv | cmp one.csv -
lines=$(wc -l <one.csv) named=$(grep -c '+0x' one.csv)
echo "both write the same $lines lines, of which $named have a symbol"
[ "$named" -gt $((lines / 2)) ]
