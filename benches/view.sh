#!/usr/bin/env bash
# A view beside its catalog, and two and four threads in one view beside one thread:
#
#     benches/view.sh FOLDER PREFIX [ROUNDS]
#
# FOLDER has kallsyms.txt and addr.100000; PREFIX is where install.sh put the library.
set -eu
folder=$(cd "$1" && pwd)
prefix=$(cd "$2" && pwd)
work=$(mktemp -d)
trap 'rm -rf "$work"' EXIT
cc -O2 -pthread "$(dirname "$0")/view.c" -I"$prefix/include" "$prefix/lib/liblatchsym.a" -o "$work/view"
"$work/view" "$folder" "${3:-9}"
