#!/usr/bin/env bash
# Makes a release twice, of which both have the same bytes, and tries it without the kit: its
# program in a root that has nothing else; and in one with bash, coreutils and libc alone its
# install.sh, with a program in C over the installed shared library. Each root takes a root user, or
# one's own by unshare. Needs gcc, xz and python3.
set -euo pipefail
. "$(dirname "$0")/lib/program.sh"

# in_root FOLDER COMMAND..: runs the command where the folder is the root, with no other network
in_root() { unshare --map-root-user --net --root="$1" "${@:2}"; }

export SOURCE_DATE_EPOCH=1767225600
for folder in first second; do
    "$top/release.sh" "$work/$folder" >"$work/out" 2>&1 || stop "$(cat "$work/out")"
done
version=$(cat "$top/VERSION")
name=latchsym-$version-x86_64
cmp "$work/first/$name.tar.xz" "$work/second/$name.tar.xz" || stop 'two releases differ'
(cd "$work/first" && sha256sum --quiet -c "$name.tar.xz.sha256")
tar -C "$work" -xf "$work/first/$name.tar.xz"
cp "$top"/examples/listings/basic.{modules,kallsyms,addresses} "$work/$name"
for file in LICENSE-MIT LICENSE-APACHE CHANGELOG.md include/latchsym.h include/latchsym.hpp include/latchsym_follow.h include/latchsym_read.h lib/liblatchsym.a \
    lib/cmake/latchsym/latchsym-config.cmake share/man/man1/latchsym{,-record}.1 share/man/man3/latchsym.3 python/pyproject.toml bindings/rust/Cargo.toml \
    bindings/rust/lib/x86_64/liblatchsym.a examples/fleet/README.md debian/rules latchsym.spdx.json \
    licences/memchr/LICENSE-MIT licences/glibc/LGPL-2.1; do
    [ -s "$work/$name/$file" ] || stop "it has no $file"
done
# the pages: all of them, and no dead link
for file in README.md docs/PROOF.md docs/headline.txt docs/watch/index.html docs/watch/torn.png; do
    [ -s "$work/$name/$file" ] || stop "it has no $file"
done
python3 "$top/tests/lib/links.py" "$work/$name" || stop 'dead links'
size=$(stat -c %s "$work/first/$name.tar.xz")

lookup=(lookup --modules /basic.modules --kallsyms /basic.kallsyms --addresses /basic.addresses)

# the program linked again, as its README says
(cd "$work/$name" && eval "$(sed -n 's/^    \(gcc -static-pie .*\)/\1/p' README.md)")
"$work/$name/latchsym" "${lookup[@]/#\//$top/examples/listings/}" | cmp - "$top/examples/listings/basic.expected" ||
    stop 'the program linked again'
cmp "$work/$name/latchsym" "$work/$name/bin/latchsym" || stop 'the program linked again is another'
rm "$work/$name/latchsym"

if ! in_root / true 2>/dev/null; then
    echo "release: $size bytes, made twice alike; not tried, since there is no other root to be had here"
    exit
fi
mkdir "$work/empty"
cp "$work/$name/bin/latchsym" "$work/$name"/basic.* "$work/empty"
in_root "$work/empty" /latchsym "${lookup[@]}" | cmp - "$top/examples/listings/basic.expected" ||
    stop 'the program in an empty root'

root=$work/root
mkdir -p "$root"/{bin,tmp} "$root/usr"
tools=(bash cat cp dirname install ln mktemp mv realpath rm)
for tool in "${tools[@]}"; do
    path=$(command -v "$tool")
    cp -L "$path" "$root/bin"
    ldd "$path" | grep -oE '/[^ ]+' >>"$work/libraries"
done
sort -u "$work/libraries" | while read -r library; do
    install -D "$library" "$root$library"
done
ln -s bash "$root/bin/sh"
mv "$work/$name" "$root/release"
gcc -I"$root/release/include" "$top/tests/c/waits.c" -L"$root/release/lib" -Wl,-rpath,/usr/lib -llatchsym -o "$root/waits"
mv "$root"/release/basic.* "$root"
in_root "$root" /bin/bash -c 'PATH=/bin; bash /release/install.sh /usr' >"$work/out" 2>&1 || stop "$(cat "$work/out")"
in_root "$root" /usr/bin/latchsym "${lookup[@]}" | cmp - "$top/examples/listings/basic.expected" ||
    stop 'the installed program'
in_root "$root" /waits /basic.modules || stop 'a program over the installed library'
in_root "$root" /bin/bash -c 'PATH=/bin; bash /release/install.sh --uninstall /usr' || stop 'taken away again'
[ -z "$(find "$root/usr" ! -type d)" ] || stop "left behind: $(find "$root/usr" ! -type d)"
echo "release: $size bytes, made twice alike; its program runs in an empty root, and it installs without the kit"
