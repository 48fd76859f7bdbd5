#!/usr/bin/env bash
# SPDX-License-Identifier: MIT OR Apache-2.0
# Makes a release, as its `--help` says.
set -euo pipefail

usage='usage: release.sh [--target PROCESSOR] FOLDER

Makes latchsym-VERSION-x86_64.tar.xz in FOLDER, with its SHA-256 beside it: the program, linked
without shared libraries, the library for C, headers, man pages, completions, the packages for
Python and Rust and that for Debian, examples, docs with the page that plays a trace, licences, a
list of what was linked in (SPDX 2.3), the objects to link the program again with another glibc, and
install.sh, which installs from it without the kit.
It builds with the Rattle kit, gcc and python3. --target aarch64 makes latchsym-VERSION-aarch64.tar.xz,
with gcc-aarch64-linux-gnu beside these. The same sources, kit, gcc and glibc give the same bytes; the
time of all files is that of SOURCE_DATE_EPOCH, and else of the last commit.'

if [ "$*" = --help ]; then
    printf '%s\n' "$usage"
    exit
fi
processor=x86_64
if [ "${1:-}" = --target ] && [[ ${2:-} =~ ^(x86_64|aarch64)$ ]]; then
    processor=$2
    shift 2
fi
if [ $# != 1 ] || [ -z "${1##-*}" ]; then
    printf 'release.sh: one FOLDER is wanted\n\n%s\n' "$usage" >&2
    exit 2
fi
top=$(cd "$(dirname "$0")" && pwd)
version=$(cat "$top/VERSION")
name=latchsym-$version-$processor
mkdir -p "$1"
out=$(cd "$1" && pwd)
epoch=${SOURCE_DATE_EPOCH:-$(git -C "$top" log -1 --format=%ct)}
work=$(mktemp -d)
trap 'rm -rf "$work"' EXIT
tree=$work/$name

DESTDIR=$tree LIBDIR=lib "$top/install.sh" --static --target "$processor" / >"$work/installed"
rm -r "$tree/lib/pkgconfig" # which install.sh writes for each prefix
cp "$top"/{VERSION,LICENSE-MIT,LICENSE-APACHE,CHANGELOG.md,SECURITY.md,install.sh} "$tree"
# the pages, with a first one of the archive's own, whose links lead from the top
sed -E 's,\]\(\.\./,](,g; s,\]\(LGPL,](licences/glibc/LGPL,' "$top/packaging/archive.md" >"$tree/README.md"
mkdir -p "$tree/docs/watch"
cp "$top"/docs/*.{md,txt} "$tree/docs"
cp "$top"/docs/watch/*.{html,png} "$tree/docs/watch"
cp -r "$top"/{python,bindings,examples} "$tree"
rm "$tree/bindings/write.py" # which reads the sources
cp -r "$top/packaging/debian" "$tree/debian"
python3 "$top/packaging/contents.py" "$processor" "$epoch" "$tree"
# the crate's own library, which its package has then, too, without what is of the program alone
mkdir -p "$tree/bindings/rust/lib/$processor"
cp -r "$tree"/{lib/liblatchsym.a,latchsym.spdx.json,licences} "$tree/bindings/rust/lib/$processor"
rm -r "$tree/bindings/rust/lib/$processor/licences/glibc"
# what the program was linked from, for whoever links it with a glibc of his own
. "$top/tests/lib/library.sh"
tools_of "$processor"
mkdir "$tree/relink"
cp "$(made_in latchsym "$processor")/latchsym.o" "$c"/{libos_c.a,liblibc_c.a} "$tree/relink"
find "$tree" \( -name __pycache__ -o -name target \) -prune -exec rm -r {} +
find "$tree" -type d -exec chmod 755 {} +
find "$tree" -type f -perm /111 -exec chmod 755 {} +
find "$tree" -type f ! -perm /111 -exec chmod 644 {} +

LC_ALL=C tar -C "$work" --sort=name --format=gnu --mtime="@$epoch" --owner=0 --group=0 --numeric-owner \
    -cf - "$name" | xz -9 --threads=1 >"$work/$name.tar.xz"
mv "$work/$name.tar.xz" "$out"
cd "$out"
sha256sum "$name.tar.xz" >"$name.tar.xz.sha256"
cat "$name.tar.xz.sha256"
