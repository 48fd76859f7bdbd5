#!/usr/bin/env bash
# Builds the library for C without a proof, if it is missing or older than a source, in a minute, and
# runs with it those programs of tests/c that take a second, and the tests of the package for Python.
# Needs gcc, binutils and python3.
set -euo pipefail
. "$(dirname "$0")/lib/program.sh"
library=$top/tests/out/liblatchsym.a
if [ ! -e "$library" ] || is_older "$library" "$top"/crates/*/src; then
    mkdir -p "$top/tests/out"
    echo "unproved_library.sh: building the library without a proof, in a minute" >&2
    "$top/tests/lib/build.py" library "$library.new"
    mv "$library.new" "$library"
fi
for name in numbers nulls find changing view adding placements claims nested replace following outgrown noted polls; do
    gcc -std=gnu11 -Wall -Wextra -Werror -O2 -I"$top/include" "$top/tests/c/$name.c" "$library" -lpthread -o "$work/$name"
    "$work/$name"
done
gcc -std=gnu11 -Wall -Wextra -Werror -O2 -I"$top/include" "$top/tests/c/read.c" "$library" -o "$work/read"
"$work/read" "$work/file"
gcc -shared -o "$work/liblatchsym.so.1" -Wl,--version-script="$top/packaging/liblatchsym.map" \
    -Wl,--whole-archive "$library" -Wl,--no-whole-archive
(cd "$top/python" && LATCHSYM_LIBRARY=$work/liblatchsym.so.1 PYTHONPATH=src PYTHONDONTWRITEBYTECODE=1 \
    python3 -W error -m unittest --quiet) 2>"$work/out" || { cat "$work/out"; exit 1; }
LATCHSYM_LIBRARY=$work/liblatchsym.so.1 PYTHONPATH=$top/python/src PYTHONDONTWRITEBYTECODE=1 \
    python3 "$top/tests/histories/of_python.py" "${RUNS:-500}" "${SEED:-1}"
echo "unproved_library: programs of tests/c and the package for Python"
