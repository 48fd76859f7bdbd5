#!/usr/bin/env bash
# Installs the program, the library for C, the man pages and the completions by install.sh, installs
# them again while program and library are in use, behind a DESTDIR, below a prefix with blanks, with
# a program without shared libraries, and where a folder cannot be made; and takes them away again.
# Looks at what the shared library shows and asks for, and builds a project of CMake's in C and one in
# C++. Needs gcc and binutils; What needs pkg-config or CMake is skipped if they are not there, with a
# line that says so (lib/tools.sh).
set -euo pipefail
. "$(dirname "$0")/lib/program.sh"
. "$top/tests/lib/tools.sh"

# installed FOLDER: what lies under it
installed() { (cd "$1" && find . ! -type d | LC_ALL=C sort | tr '\n' ' '); }
version=$(cat "$top/VERSION")
whole='./bin/latchsym ./bin/latchsym-record ./include/latchsym.h ./include/latchsym.hpp ./include/latchsym_follow.h ./include/latchsym_read.h '
whole+='./lib/cmake/latchsym/latchsym-config-version.cmake ./lib/cmake/latchsym/latchsym-config.cmake ./lib/liblatchsym.a ./lib/liblatchsym.so '
whole+="./lib/liblatchsym.so.${version%%.*} ./lib/liblatchsym.so.$version ./lib/pkgconfig/latchsym.pc "
whole+='./share/bash-completion/completions/latchsym ./share/fish/vendor_completions.d/latchsym.fish '
whole+='./share/man/man1/latchsym-record.1 ./share/man/man1/latchsym.1 ./share/man/man3/latchsym.3 ./share/zsh/site-functions/_latchsym '

# run ARGUMENT..: install.sh with these arguments; what it writes is in out and err
run() {
    status=0
    "$top/install.sh" "$@" >"$work/out" 2>"$work/err" || status=$?
}

run --help
[ $status = 0 ] && [ -s "$work/out" ] && [ ! -s "$work/err" ] || stop '--help: not on standard output'
for words in '' '--prefix' 'a b' '--target' '--target arm64 a'; do
    # shellcheck disable=SC2086
    run $words
    [ $status = 2 ] && [ ! -s "$work/out" ] && [ -s "$work/err" ] || stop "install.sh $words: status $status"
done

# (sh is another shell on Debian)
# shellcheck disable=SC2016
[ -n "$(sh -c 'echo "${BASH_VERSION:-}"')" ] || {
    sh "$top/install.sh" "$work/prefix" 2>"$work/err" && stop 'sh: status 0'
    grep -q 'a script of bash' "$work/err" || stop "sh: $(cat "$work/err")"
}

prefix=$work/prefix
run "$prefix"
[ $status = 0 ] || stop "$(cat "$work/err")"
[ "$(installed "$prefix")" = "$whole" ] || stop "installed: $(installed "$prefix")"
cmp "$top/docs/latchsym.1" "$prefix/share/man/man1/latchsym.1"
cmp "$top/docs/latchsym-record.1" "$prefix/share/man/man1/latchsym-record.1"
cmp "$top/scripts/latchsym-record" "$prefix/bin/latchsym-record"
cmp "$top/docs/latchsym.3" "$prefix/share/man/man3/latchsym.3"
cmp "$top/completions/latchsym.bash" "$prefix/share/bash-completion/completions/latchsym"
cmp "$top/completions/latchsym.fish" "$prefix/share/fish/vendor_completions.d/latchsym.fish"
cmp "$top/completions/_latchsym" "$prefix/share/zsh/site-functions/_latchsym"

# the shared library: its name, that it is bound when it is loaded, and the calls of the header alone
so=$prefix/lib/liblatchsym.so.$version
readelf -dW "$so" | grep -q "SONAME.*\[liblatchsym\.so\.${version%%.*}\]" || stop "the library's name is $(readelf -dW "$so" | grep SONAME)"
readelf -dW "$so" | grep -q BIND_NOW || stop 'the library is bound late'
nm -D --defined-only "$so" | sed -nE 's/.* T ([^@]*).*/\1/p' | sort >"$work/shown"
nm -g --defined-only "$prefix/lib/liblatchsym.a" | sed -n 's/.* T //p' | sort | diff - "$work/shown" ||
    stop 'the two libraries show other names'
grep -oE '^(uint32_t|void) latchsym_[a-z_]+' "$top/include/latchsym.h" | cut -d' ' -f2 | sort | diff - "$work/shown" ||
    stop 'the library shows other names than the header'

# both wait for a file while all is installed once more
read -ra flags <<<"-I$prefix/include -L$prefix/lib -Wl,-rpath,$prefix/lib -llatchsym"
if has 'command -v pkg-config' pkg-config; then
    read -ra flags < <(PKG_CONFIG_PATH=$prefix/lib/pkgconfig pkg-config --cflags --libs latchsym)
fi
gcc -std=gnu11 -Wall -Wextra -Werror "$top/tests/c/waits.c" "${flags[@]}" -o "$work/waits"
cd "$top/examples/listings"
mkfifo "$work/file" "$work/modules"
"$work/waits" "$work/file" &
waits=$!
"$prefix/bin/latchsym" lookup --modules "$work/modules" --kallsyms basic.kallsyms --addresses basic.addresses >"$work/lines" &
looks_up=$!
exec 3>"$work/file" 4>"$work/modules"
run "$prefix"
[ $status = 0 ] || stop "while they are in use: $(cat "$work/err")"
[ "$(installed "$prefix")" = "$whole" ] || stop "installed again: $(installed "$prefix")"
cat basic.modules >&4
exec 3>&- 4>&-
wait $waits || stop "a program that uses the library died"
wait $looks_up || stop "the program died"
cmp "$work/lines" basic.expected

# a prefix with blanks, with a program without shared libraries
prefix="$work/a prefix"
run --static "$prefix"
[ $status = 0 ] && [ "$(installed "$prefix")" = "$whole" ] || stop "a prefix with blanks: $(cat "$work/err")"
! readelf -lW "$prefix/bin/latchsym" | grep -q INTERP || stop 'the program wants an interpreter'
! readelf -dW "$prefix/bin/latchsym" | grep -q NEEDED || stop 'the program wants shared libraries'
"$prefix/bin/latchsym" lookup --modules basic.modules --kallsyms basic.kallsyms --addresses basic.addresses |
    cmp - basic.expected
if command -v pkg-config >/dev/null; then
    export PKG_CONFIG_PATH=$prefix/lib/pkgconfig
    [ "$(pkg-config --modversion latchsym)" = "$version" ] || stop "latchsym.pc is of another version"
    eval "gcc -std=gnu11 $top/tests/c/waits.c $(pkg-config --cflags --libs latchsym) -o $work/waits"
    "$work/waits" /dev/null || stop "a program of $(pkg-config --libs latchsym)"
fi

# by_cmake PREFIX LANGUAGE SOURCE VERSION: makes `built` the program of the source, by a project that
# wants this version of what is installed there; or fails
by_cmake() {
    rm -rf "$work/project"
    mkdir "$work/project"
    printf '%s\n' 'cmake_minimum_required(VERSION 3.13)' "project(project $2)" 'set(CMAKE_CXX_STANDARD 17)' \
        "find_package(latchsym $4 REQUIRED)" "add_executable(program \"$3\")" \
        'target_link_libraries(program PRIVATE latchsym::latchsym)' >"$work/project/CMakeLists.txt"
    built=$work/project/built/program
    cmake -S "$work/project" -B "$work/project/built" -DCMAKE_PREFIX_PATH="$1" >"$work/out" 2>&1 &&
        cmake --build "$work/project/built" >>"$work/out" 2>&1
}
if has 'command -v cmake && command -v make && command -v g++' cmake make g++; then
    by_cmake "$prefix" C "$top/tests/c/waits.c" "${version%.*}" && "$built" /dev/null || stop "CMake, C: $(cat "$work/out")"
    ! readelf -d "$built" | grep -q liblatchsym || stop 'a program by CMake wants the shared library'
    by_cmake "$prefix" CXX "$top/examples/cpp/lookup.cpp" "$version" &&
        "$built" alone.kallsyms 0xffffffff81000108 | grep -qx '0xffffffff81000108 do_one+0x8/0x1f00' || stop "CMake, C++: $(cat "$work/out")"
    for other in "${version%%.*}.99" $((${version%%.*} + 1)); do
        ! by_cmake "$prefix" C "$top/tests/c/waits.c" "$other" || stop "CMake takes it for version $other"
    done
fi
run --uninstall "$prefix"
[ $status = 0 ] && [ -z "$(installed "$prefix")" ] || stop "uninstalled: $(installed "$prefix")"
prefix=$work/prefix

DESTDIR=$work/stage run /opt/latchsym
[ $status = 0 ] && [ "$(installed "$work/stage/opt/latchsym")" = "$whole" ] || stop "DESTDIR: $(cat "$work/err")"
[ "$(head -n 1 "$work/stage/opt/latchsym/lib/pkgconfig/latchsym.pc")" = 'prefix=/opt/latchsym' ] || stop 'DESTDIR: another prefix'

# the system's own folders: a folder for the library, and no path to it in programs
export LIBDIR=lib/x86_64-linux-gnu
DESTDIR=$work/system run /usr
[ $status = 0 ] && [ "$(installed "$work/system/usr" | sed 's,lib/x86_64-linux-gnu,lib,g')" = "$whole" ] ||
    stop "LIBDIR: $(cat "$work/err") $(installed "$work/system/usr")"
[ ! -e "$work/system/usr/lib/liblatchsym.a" ] || stop 'LIBDIR: the library lies in lib'
if command -v pkg-config >/dev/null; then
    export PKG_CONFIG_PATH=$work/system/usr/$LIBDIR/pkgconfig
    words=$(PKG_CONFIG_ALLOW_SYSTEM_LIBS=1 pkg-config --libs latchsym)
    [ "${words% }" = '-L/usr/lib/x86_64-linux-gnu -llatchsym' ] || stop "LIBDIR: $words"
fi
[ ! -d "$work/project" ] || { by_cmake "$work/system/usr" C "$top/tests/c/waits.c" '' && "$built" /dev/null; } ||
    stop "LIBDIR: CMake: $(cat "$work/out")"
LIBDIR='' DESTDIR=$work/system run --uninstall /usr
[ $status = 1 ] && [ "$(grep -c "^install.sh: left, .*: $work/system/usr/$LIBDIR/liblatchsym" "$work/err")" = 4 ] ||
    stop "another LIBDIR: status $status, $(cat "$work/err")"
DESTDIR=$work/system run --uninstall /usr
[ $status = 0 ] && [ -z "$(installed "$work/system")" ] || stop "LIBDIR: left: $(installed "$work/system")"
for LIBDIR in /usr/lib64 ../lib lib/../..; do
    run "$work/none"
    [ $status = 2 ] && [ ! -e "$work/none" ] || stop "LIBDIR=$LIBDIR: status $status"
done
unset LIBDIR

# no file is there where one cannot be
mkdir "$work/narrow"
echo kept >"$work/narrow/include"
run "$work/narrow"
[ $status = 1 ] && [ "$(installed "$work/narrow")" = './include ' ] || stop "without a folder: $(installed "$work/narrow")"

echo kept >"$prefix/lib/other"
run --uninstall "$prefix"
[ $status = 0 ] && [ "$(installed "$prefix")" = './lib/other ' ] || stop "uninstalled: $(installed "$prefix")"
echo "install: by rename beside running programs, behind a DESTDIR, below blanks, and away again"
