#!/usr/bin/env bash
# What it takes to follow a listing of 150,000 symbols in which 5 of 200 modules are others by turns,
# and how many addresses are found beside it; and the same of libbcc (Debian's libbpfcc-dev), whose
# cache is made anew under a lock.
#
#     benches/follow.sh PREFIX [SECONDS]
#
# PREFIX is where install.sh put the library. libbcc reads /proc/kallsyms: one of the listings is
# bound there, in a mount namespace, which takes root.
set -eu
prefix=$(cd "$1" && pwd)
work=$(mktemp -d)
trap 'rm -rf "$work"' EXIT
# listing FIRST: modules FIRST to FIRST + 4 and 5 to 199, of 250 symbols each, and the kernel's 100,000
listing() {
    awk -v first="$1" 'BEGIN {
        printf "ffffffff81000000 T _stext\n"
        for (i = 1; i < 99999; i++) printf "ffffffff%08x t kernel_%d\n", 2164260864 + 192 * i, i
        printf "ffffffff84000000 B _end\n"
        for (m = 0; m < 200; m++) {
            number = m < 5 ? m + first : m
            for (i = 0; i < 250; i++) printf "ffffffff%08x t f%d_%d\t[m%d]\n", 3221225472 + 65536 * number + 64 * i, number, i, number
        }
    }'
}
listing 0 >"$work/one"
listing 200 >"$work/other"
# shellcheck disable=SC2086
cc -O2 ${CFLAGS:-} "$(dirname "$0")/follow.c" -I"$prefix/include" "$prefix/lib/liblatchsym.a" -lbcc -lpthread ${LDFLAGS:-} \
    -o "$work/follow"
unshare -m sh -c 'mount --bind "$1/one" /proc/kallsyms && exec "$1/follow" "$1/one" "$1/other" "$2"' sh "$work" "${2:-2}"
