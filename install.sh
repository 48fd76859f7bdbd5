#!/usr/bin/env bash
# SPDX-License-Identifier: MIT OR Apache-2.0
# Installs, as its `--help` says. It is the same in the repository, where it builds first, and in a
# release, which has all files where they are to be under PREFIX.
if [ -z "${BASH_VERSION:-}" ]; then
    echo 'install.sh: this is a script of bash: ./install.sh PREFIX, or bash install.sh PREFIX' >&2
    exit 2
fi
set -euo pipefail

usage='usage: install.sh [--static] [--target PROCESSOR] [--uninstall] PREFIX

Puts the program latchsym and the library for C and C++ under PREFIX: bin/latchsym, and the script
bin/latchsym-record beside it; the headers in include; liblatchsym.a and liblatchsym.so in lib, with
latchsym.pc for pkg-config and a package for CMake; and the man pages and the completions for bash, zsh and fish, each in its folder of share. In
the repository it builds them, which takes the Rattle kit and gcc; a release has them.
All files are copied first and then renamed, so running programs keep the old files, and a
copy that fails changes nothing.

--static      links the program without shared libraries, as that of a release is
--target P    builds for the processor P, x86_64 or aarch64; the program is as with --static, and
              aarch64 takes Debian'"'"'s gcc-aarch64-linux-gnu. A release is of one processor
--uninstall   takes these files away again, and leaves the folders; with the LIBDIR that they were
              installed with, if one was set. What is left of other ones or versions is named
--help        this text

Where DESTDIR is set, it stands before PREFIX, and latchsym.pc does not name it. Where LIBDIR is
set, as to lib64 or lib/x86_64-linux-gnu, that folder of PREFIX takes the library in place of lib.'

fault() {
    printf 'install.sh: %s\n\n%s\n' "$1" "$usage" >&2
    exit 2
}

uninstall=
static=
processor=
prefix=
while [ $# -gt 0 ]; do
    word=$1
    shift
    case $word in
        --help)
            printf '%s\n' "$usage"
            exit
            ;;
        --uninstall) uninstall=1 ;;
        --static) static=1 ;;
        --target)
            case ${1:-} in
                x86_64 | aarch64) processor=$1 ;;
                *) fault "--target takes x86_64 or aarch64" ;;
            esac
            shift
            ;;
        -*) fault "there is no option $word" ;;
        *)
            [ -z "$prefix" ] || fault 'more than one PREFIX is given'
            prefix=$(realpath -ms -- "$word")
            ;;
    esac
done
[ -n "$prefix" ] || fault 'no PREFIX is given'
to=${DESTDIR:-}${prefix%/}
lib=${LIBDIR:-lib}
case /$lib/ in
    //* | */../*) fault 'LIBDIR is not a folder of PREFIX' ;;
esac
here=$(cd "$(dirname "${BASH_SOURCE[0]}")" && pwd)
version=$(cat "$here/VERSION")

files=(bin/latchsym bin/latchsym-record include/latchsym.h include/latchsym.hpp include/latchsym_{follow,read}.h
    "$lib"/{liblatchsym.a,"liblatchsym.so.$version",pkgconfig/latchsym.pc}
    "$lib"/cmake/latchsym/latchsym-config{,-version}.cmake
    share/bash-completion/completions/latchsym share/fish/vendor_completions.d/latchsym.fish
    share/man/man1/latchsym{,-record}.1 share/man/man3/latchsym.3 share/zsh/site-functions/_latchsym)
# each link, and the file beside it that it leads to
declare -A links=(
    [$lib/liblatchsym.so.${version%%.*}]=liblatchsym.so.$version
    [$lib/liblatchsym.so]=liblatchsym.so.${version%%.*}
)
all=("${files[@]}" "${!links[@]}")

if [ -n "$uninstall" ]; then
    rm -f "${all[@]/#/"$to/"}"
    shopt -s nullglob
    left=("$to"/lib*/liblatchsym.{a,so*} "$to"/lib*/*/liblatchsym.{a,so*})
    [ ${#left[@]} -gt 0 ] || exit 0
    printf 'install.sh: left, of another LIBDIR or version: %s\n' "${left[@]}" >&2
    exit 1
fi

# source_of FILE: where the file is that goes to FILE under PREFIX, in the repository
source_of() {
    case $1 in
        bin/latchsym-record) echo "$top/scripts/latchsym-record" ;;
        bin/*) echo "$program" ;;
        *.a) echo "$library" ;;
        *.so.*) echo "$shared" ;;
        */bash-completion/*) echo "$top/completions/latchsym.bash" ;;
        share/man/*) echo "$top/docs/${1##*/}" ;;
        share/*) echo "$top/completions/${1##*/}" ;;
        *) echo "$top/$1" ;;
    esac
}

if [ -e "$here/bin/latchsym" ]; then
    [ -z "$processor" ] || fault 'a release is of one processor'
    source_of() {
        case $1 in
            "$lib"/*) echo "$here/lib/${1#"$lib"/}" ;;
            *) echo "$here/$1" ;;
        esac
    }
    work=$(mktemp -d)
else
    . "$here/tests/lib/program.sh"
    . "$top/tests/lib/library.sh"
    if [ -n "$static$processor" ]; then build_static latchsym "$processor"; else build_proved latchsym; fi
    build_library "$processor"
fi

# the loader looks into the system's own folders, and a path to them in a program is a fault there
case $prefix in
    / | /usr) rpath='' ;;
    *) rpath=' -Wl,-rpath,"${libdir}"' ;;
esac
# (quotes, for a prefix with blanks)
cat >"$work/latchsym.pc" <<END
prefix=$prefix
includedir=\${prefix}/include
libdir=\${prefix}/$lib

Name: latchsym
Description: A catalog of kernel symbols and a latched table of address ranges
License: MIT OR Apache-2.0
Version: $version
Cflags: -I"\${includedir}"
Libs: -L"\${libdir}"$rpath -llatchsym
END

# (found from where it lies, which may be another folder than it was installed to)
cat >"$work/latchsym-config.cmake" <<END
# latchsym::latchsym is the static library with its headers.
get_filename_component(_latchsym_lib "\${CMAKE_CURRENT_LIST_DIR}/../.." REALPATH)
get_filename_component(_latchsym_include "\${_latchsym_lib}/$(realpath -ms --relative-to="/$lib" /include)" ABSOLUTE)
if(NOT TARGET latchsym::latchsym)
  add_library(latchsym::latchsym STATIC IMPORTED)
  set_target_properties(latchsym::latchsym PROPERTIES
    IMPORTED_LOCATION "\${_latchsym_lib}/liblatchsym.a"
    INTERFACE_INCLUDE_DIRECTORIES "\${_latchsym_include}")
endif()
END
cat >"$work/latchsym-config-version.cmake" <<END
set(PACKAGE_VERSION "$version")
if(PACKAGE_FIND_VERSION_MAJOR EQUAL ${version%%.*} AND NOT PACKAGE_FIND_VERSION VERSION_GREATER PACKAGE_VERSION)
  set(PACKAGE_VERSION_COMPATIBLE TRUE)
endif()
if(PACKAGE_FIND_VERSION VERSION_EQUAL PACKAGE_VERSION)
  set(PACKAGE_VERSION_EXACT TRUE)
endif()
END

new=.latchsym.new
copies=("${all[@]/#/"$to/"}")
copies=("${copies[@]/%/$new}")
trap 'rm -rf "$work" "${copies[@]}"' EXIT
for file in "${files[@]}"; do
    case $file in
        *.pc | *.cmake) source=$work/${file##*/} ;;
        *) source=$(source_of "$file") ;;
    esac
    case $file in
        bin/* | *.so.*) mode=755 ;;
        *) mode=644 ;;
    esac
    install -D -m $mode "$source" "$to/$file$new"
done
for link in "${!links[@]}"; do
    ln -sfn "${links[$link]}" "$to/$link$new"
done
for file in "${all[@]}"; do
    mv -fT "$to/$file$new" "$to/$file"
    echo "$to/$file"
done
