#!/usr/bin/env bash
# A lookup of the library, by a reader and by a pool of readers, beside those of glibc
# (_dl_find_object), of liburcu (Debian's liburcu-dev, if it is there) and of a read-locked array,
# among the shared objects of one process, 14 and 204 of them: nanoseconds of a lookup while nothing
# changes, on one thread and on four; and its latency beside updates: p50, p99, p99.9 and the greatest.
#
#     benches/objects.sh PREFIX [ROUNDS]
#
# PREFIX is where install.sh put the library. Latencies want two processors of their own.
set -eu
prefix=$(cd "$1" && pwd)
here=$(cd "$(dirname "$0")" && pwd)
work=$(mktemp -d)
trap 'rm -rf "$work"' EXIT
urcu=()
# shellcheck disable=SC2086
if echo '#include <urcu/urcu-memb.h>' | cc ${CFLAGS:-} -E -xc - >/dev/null 2>&1; then
    urcu=(-DWITH_URCU -lurcu-memb -lurcu-common)
else
    echo 'objects.sh: without liburcu (Debian: apt-get install liburcu-dev)' >&2
fi
# shellcheck disable=SC2086
cc -O2 ${CFLAGS:-} -pthread "$here/objects.c" -I"$prefix/include" "$prefix/lib/liblatchsym.a" ${LDFLAGS:-} \
    "${urcu[@]}" -o "$work/objects"
echo 'int inside(int x) { return x + 1; }' | cc -shared -fPIC -nostdlib -xc - -o "$work/object.so"
# one that is copied is another object, as it is another file
for objects in 14 204; do
    copies=()
    for copy in $(seq "$objects"); do
        cp "$work/object.so" "$work/$objects.$copy.so"
        copies+=("$work/$objects.$copy.so")
    done
    "$work/objects" "${2:-9}" "${copies[@]}"
done
