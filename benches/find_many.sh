#!/usr/bin/env bash
# The time of one call of find_many for 1,000,000 addresses in a listing of SYMBOLS symbols
# (1000000), from C and from Python, and the ratio of the medians:
#
#     benches/find_many.sh PREFIX [ROUNDS [SYMBOLS]]
#
# PREFIX is where install.sh put the library.
set -eu
prefix=$(cd "$1" && pwd)
here=$(cd "$(dirname "$0")" && pwd)
work=$(mktemp -d)
trap 'rm -rf "$work"' EXIT
export LATCHSYM_LIBRARY="$prefix/lib/liblatchsym.so.1" PYTHONPATH="$here/../python/src" PYTHONDONTWRITEBYTECODE=1
cc -O2 "$here/find_many.c" -I"$prefix/include" "$prefix/lib/liblatchsym.a" -o "$work/find_many"
cd "$work"
python3 "$here/find_many.py" make kallsyms addresses "${3:-1000000}" 1000000
from_c=$(./find_many kallsyms addresses "${2:-9}")
from_python=$(python3 "$here/find_many.py" kallsyms addresses "${2:-9}")
awk -v c="$from_c" -v python="$from_python" \
    'BEGIN { printf "1000000 addresses: C %.3f s, Python %.3f s, ratio %.2f\n", c, python, python / c }'
