#!/usr/bin/env bash
# Tries what people install, each made of a release: the wheel that has the library, with the tests
# of the package for Python, by pip in an environment of its own where PATH has no compiler; the
# crate that has it, built from what `cargo package` makes; and the packages for Debian, built by
# dpkg-buildpackage, looked through by lintian, and installed, used and removed in a Debian by
# debootstrap, or else unpacked. Looks at which versions of glibc the library asks for. What needs
# a tool that is not there is skipped, with a line that says so (lib/tools.sh).
# Needs gcc, binutils and python3.
set -euo pipefail
. "$(dirname "$0")/lib/program.sh"
. "$top/tests/lib/tools.sh"

version=$(cat "$top/VERSION")
name=latchsym-$version-x86_64
"$top/release.sh" "$work" >"$work/out" 2>&1 || stop "$(cat "$work/out")"
tar -C "$work" -xf "$work/$name.tar.xz"
release=$work/$name
python3 -m json.tool "$release/latchsym.spdx.json" >/dev/null
runs_on_old_glibc '' "$release/lib/liblatchsym.so.1" ||
    stop "the library asks for $(objdump -T "$release/lib/liblatchsym.so.1" | grep GLIBC)"

# said WORDS: the command of its README that begins so
said() {
    grep -oE "\`[^\`]*\`" "$release/README.md" | tr -d '\`' | grep -F -- "$1" || stop "its README has no $1"
}

# the wheel
# shellcheck disable=SC2016
if has 'python3 -m venv "$work/venv"' python3-venv; then
    pip=(-m pip --quiet --disable-pip-version-check --no-cache-dir)
    wheel=latchsym-$version-py3-none-manylinux_2_17_x86_64.whl
    makes=("$work/venv/bin/python" "${pip[@]}" wheel --no-index --no-deps --wheel-dir)
    "${makes[@]}" "$work" "$release/python"
    "${makes[@]}" "$work/named" --config-settings release="$release" "$top/python"
    cmp "$work/$wheel" "$work/named/$wheel" || stop 'a wheel of a release that is named is another one'
    (cd "$release" && ! "${makes[@]}" "$work/none" --config-settings release=. ./python) >"$work/out" 2>&1 &&
        grep -q 'latchsym: \. is no unpacked release' "$work/out" || stop "a release that is none: $(cat "$work/out")"
    wheel=$work/$wheel
    alone=(env -i PATH=/none "$work/venv/bin/python")
    "${alone[@]}" "${pip[@]}" install --no-index "$wheel"
    library=$("${alone[@]}" -c 'import latchsym; print(latchsym._library.lib._name)')
    cmp "$library" "$release/lib/liblatchsym.so.1"
    [[ $library == "$work"/venv/* ]] || stop "the wheel's package has loaded $library"
    (cd "$release/python" && "${alone[@]}" -W error -m unittest --quiet) >"$work/out" 2>&1 ||
        stop "$(cat "$work/out")"
    echo "packages: the wheel: $(stat -c %s "$wheel") bytes, with the library, by pip alone"
fi

# the crate
if has 'command -v cargo' cargo; then
    export CARGO_TARGET_DIR=$work/target
    unset LATCHSYM_LIB_DIR
    (cd "$release" && eval "$(said 'cargo package')") >"$work/out" 2>&1 ||
        stop "$(cat "$work/out")"
    crate=$work/target/package/latchsym-$version.crate
    tar -C "$work" -xf "$crate"
    cd "$work/latchsym-$version"
    for file in lib/x86_64/{liblatchsym.a,latchsym.spdx.json,licences/memchr/LICENSE-MIT}; do
        [ -s "$file" ] || stop "the crate has no $file"
    done
    mapfile -t words < <(grep -oE '^0x[0-9a-f]+' "$top/examples/listings/alone.addresses")
    cargo run --quiet --offline --example lookup "$top/examples/listings/alone.kallsyms" "${words[@]}" |
        diff - <(grep '^0x' "$top/examples/listings/alone.expected")
    echo "packages: the crate: $(stat -c %s "$crate") bytes, with the library, built from its package"
fi

# the packages for Debian
tools='command -v dpkg-buildpackage && command -v dh && command -v lintian'
has "$tools" dpkg-dev debhelper lintian || exit 0
mkdir "$work/debian"
cp -r "$release" "$work/debian"
(cd "$work/debian/$name" && eval "$(said dpkg-buildpackage)") >"$work/out" 2>&1 ||
    stop "$(cat "$work/out")"
lintian --no-cfg --allow-root --fail-on error "$work"/debian/*.changes >"$work/out" 2>&1 ||
    stop "$(cat "$work/out")"
debs=("$work"/debian/*.deb)
[ ${#debs[@]} = 3 ] || stop "${debs[*]} are not three packages"
for deb in "${debs[@]}"; do
    dpkg-deb -x "$deb" "$work/unpacked"
done
# (a page's links lead to what is beside it, in a package on its own too)
for folder in "$work"/unpacked/usr/share/doc/*; do
    [ -z "$(find "$folder" -name '*.md*')" ] || python3 "$top/tests/lib/links.py" "$folder" || stop "dead links in $folder"
done
triplet=$(dpkg-architecture -q DEB_HOST_MULTIARCH)
libraries=$work/unpacked/usr/lib/$triplet
gcc -I"$work/unpacked/usr/include" "$top/tests/c/waits.c" -L"$libraries" -llatchsym -o "$work/waits"
lookup=(--modules /basic.modules --kallsyms /basic.kallsyms --addresses /basic.addresses)
wanted=$top/examples/listings/basic.expected
sizes=$(stat -c %s "${debs[@]}" | paste -sd ' ')

root=$work/root
if [ "$(id -u)" = 0 ] && has 'command -v debootstrap' debootstrap &&
    timeout 150 debootstrap --variant=minbase bookworm "$root" >"$work/out" 2>&1; then
    # files: what lies in the root, but for what dpkg and ldconfig note
    files() {
        (cd "$root" && find . ! -path './var/lib/dpkg/*' ! -path './var/log/*' ! -path './var/cache/*') |
            sort
    }
    cp "$top"/examples/listings/basic.{modules,kallsyms,addresses} "$work/waits" "$root"
    files >"$work/before"
    mkdir "$root/debs"
    cp "${debs[@]}" "$root/debs"
    chroot "$root" bash -c 'dpkg -i debs/*.deb' >"$work/out" 2>&1 || stop "$(cat "$work/out")"
    rm -r "$root/debs"
    chroot "$root" latchsym lookup "${lookup[@]}" | cmp - "$wanted" || stop 'the installed program'
    chroot "$root" /waits /basic.modules || stop 'a program over the installed library'
    for file in /usr/share/{man/man1/latchsym{,-record}.1.gz,bash-completion/completions/latchsym}; do
        [ "$(chroot "$root" dpkg -S "$file")" = "latchsym: $file" ] || stop "no package has $file"
    done
    chroot "$root" dpkg --purge latchsym liblatchsym-dev liblatchsym1 >"$work/out" 2>&1 ||
        stop "$(cat "$work/out")"
    files | diff "$work/before" - || stop 'these stay behind'
    echo "packages: for Debian: $sizes bytes, installed, used and removed in a Debian of their own"
else
    "$work/unpacked/usr/bin/latchsym" lookup "${lookup[@]/#\//$top/examples/listings/}" | cmp - "$wanted"
    LD_LIBRARY_PATH=$libraries "$work/waits" "$wanted" || stop 'a program over the unpacked library'
    echo "packages: for Debian: $sizes bytes, unpacked and used; there is no other Debian to be had here"
fi
