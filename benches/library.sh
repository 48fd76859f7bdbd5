#!/usr/bin/env bash
# The library for C beside libbcc (Debian's libbpfcc-dev), in one program: how long they take to
# open listings and to find an address in them, as ratios.
#
#     benches/library.sh FOLDER PREFIX [ROUNDS]
#
# FOLDER has modules.txt, kallsyms.txt and addr.100000; PREFIX is where install.sh put the library.
# libbcc reads /proc/kallsyms: the folder's is bound there, in a mount namespace, which takes root.
set -eu
folder=$(cd "$1" && pwd)
prefix=$(cd "$2" && pwd)
work=$(mktemp -d)
trap 'rm -rf "$work"' EXIT
cc -O2 "$(dirname "$0")/library.c" -I"$prefix/include" "$prefix/lib/liblatchsym.a" -lbcc \
    -o "$work/library"
unshare -m sh -c 'mount --bind "$1/kallsyms.txt" /proc/kallsyms && exec "$2" "$1" "$3"' \
    sh "$folder" "$work/library" "${3:-9}"
