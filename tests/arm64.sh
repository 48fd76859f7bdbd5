#!/usr/bin/env bash
# tests/arm64.sh [--share]
# The library and the program for arm64, built from the same proofs by the cross compiler and run by
# an emulator of that processor: the programs of tests/c and examples/c, so numbers, finds of each
# kind over the listings of examples/, the table on threads and beside signals; the tests of traces
# and of annotated logs, over the program; and what a release for arm64 has, its wheel and the
# packages for Debian among it. Looks at the order of the atomic steps in the machine code. What needs
# a tool that is not there is skipped, with a line that says so (lib/tools.sh).
#
# The program is proved anew for this processor, which takes minutes: with --share it is looked at on
# every seventh day, and on the others the library alone.
set -euo pipefail
. "$(dirname "$0")/lib/program.sh"
. "$top/tests/lib/library.sh"
. "$top/tests/lib/tools.sh"
arm=aarch64-linux-gnu-

has "command -v ${arm}gcc && command -v qemu-aarch64" \
    gcc-aarch64-linux-gnu libc6-dev-arm64-cross qemu-user || exit 0
build_library aarch64
cp "$library" "$work/liblatchsym.a"
cp "$shared" "$work/liblatchsym.so.1"
runs_on_old_glibc $arm "$shared" ||
    stop "the library asks for $(${arm}objdump -T "$shared" | grep GLIBC)"

# run PROGRAM ARGUMENT..: by the emulator, with the cross compiler's C library
run() { timeout 300 qemu-aarch64 -L /usr/aarch64-linux-gnu "$@"; }
# compile SOURCE NAME LIBRARY: the program NAME, over the static library or the shared one
compile() {
    ${arm}gcc -std=gnu11 -Wall -Wextra -Werror -O2 -I"$top/include" "$1" "$3" -lpthread \
        -Wl,-rpath,"$work" -o "$work/$2"
}
for name in numbers nulls find view adding refused stops; do
    compile "$top/tests/c/$name.c" $name "$work/liblatchsym.a"
    run "$work/$name"
done
compile "$top/tests/c/table.c" table "$work/liblatchsym.a"
run "$work/table" 1000
compile "$top/tests/c/waits.c" waits "$work/liblatchsym.so.1"
run "$work/waits" "$top/VERSION"
for name in lookup annotate profiler; do
    compile "$top/examples/c/$name.c" $name "$work/liblatchsym.a"
done
run "$work/profiler"
cd "$top/examples/listings"
for name in basic causes empty; do
    # shellcheck disable=SC2046
    run "$work/lookup" $name.modules $name.kallsyms $(cat $name.addresses) >"$work/lines"
    grep '^0x' $name.expected | cmp "$work/lines" -
done
# (the example takes each address as it is, wants a listing of modules, and knows 16 digits)
for log in "$top"/examples/logs/*.log; do
    listings=basic
    [ ! -e "${log%.log}.kallsyms" ] || listings=${log%.log}
    [ -e "$listings.modules" ] && [ "$(basename "$log")" != i386.log ] || continue
    run "$work/annotate" "$listings.kallsyms" "$listings.modules" <"$log" |
        cmp - "${log%.log}.exact"
done

# The words of the table are loaded and stored in one order for all: an attempt loads the sequence, a
# root, the three words of an item, a link and the sequence again by ldar, and a step of the writer
# stores by stlr, or what is stronger.
# steps FUNCTION INSTRUCTION: how many of these instructions the functions have
steps() {
    ${arm}objdump -d --no-show-raw-insn "$work/liblatchsym.a" | awk -v named="$1" -v wanted="^($2)$" '
        /^[0-9a-f]+ <.*>:$/ { is_here = $0 ~ named }
        is_here && $2 ~ wanted { count++ }
        END { print count + 0 }'
}
loads=$(steps try_find ldar)
for name in step finish; do
    [ "$(steps "latchsym_writer_$name" 'stlr|stlxr|swpal')" -ge 1 ] ||
        stop "the writer's $name has no store by stlr"
done
[ "$loads" -ge 7 ] || stop "an attempt has $loads loads by ldar"
echo "arm64: an attempt loads by ldar, in $loads places, and a step of the writer stores by stlr"

if [ "${1:-}" = --share ] && [ $(($(date +%s) / 86400 % 7)) != 0 ]; then
    echo "arm64: the program and its release are not looked at today"
    exit
fi

# the program: the tests of its traces and logs, and a release with all that is made of it
"$top/release.sh" --target aarch64 "$work" >"$work/out" 2>&1 || stop "$(cat "$work/out")"
version=$(cat "$top/VERSION")
name=latchsym-$version-aarch64
tar -C "$work" -xf "$work/$name.tar.xz"
release=$work/$name
for file in bin/latchsym lib/liblatchsym.so.1 bindings/rust/lib/aarch64/liblatchsym.a \
    share/man/man1/latchsym.1 share/man/man3/latchsym.3 include/latchsym.h latchsym.spdx.json; do
    [ -s "$release/$file" ] || stop "the release has no $file"
done
mkdir "$work/emulated"
printf '#!/bin/sh\nexec qemu-aarch64 %s "$@"\n' "$release/bin/latchsym" >"$work/emulated/latchsym"
chmod +x "$work/emulated/latchsym"
for script in traces annotate; do
    EMULATED=1 RUNS=20 PROGRAMS=$work/emulated "$top/tests/$script.sh"
done
timeout 60 "$work/emulated/latchsym" run --modules basic.modules --kallsyms basic.kallsyms --readers 1 \
    ../scripts/loads.script >"$work/lines"
cmp -s "$work/lines" ../scripts/loads.before || cmp -s "$work/lines" ../scripts/loads.after ||
    stop "a writer beside a reader: $(cat "$work/lines")"

# shellcheck disable=SC2016
if has 'python3 -m venv "$work/venv"' python3-venv; then
    "$work/venv/bin/python" -m pip --quiet --disable-pip-version-check --no-cache-dir wheel --no-index \
        --no-deps --wheel-dir "$work" --config-settings release="$release" "$release/python"
    stat -c 'arm64: the wheel: %s bytes' "$work/latchsym-$version-py3-none-manylinux_2_17_aarch64.whl"
fi
if has 'command -v dpkg-buildpackage && command -v dh' dpkg-dev debhelper; then
    (cd "$release" && dpkg-buildpackage --build=binary --no-sign -d -aarm64) >"$work/out" 2>&1 ||
        stop "$(cat "$work/out")"
    (cd "$work" && stat -c 'arm64: %n: %s bytes' ./*_arm64.deb)
fi
