# Read after program.sh by the scripts that use the library for C.

# Each is built for a PROCESSOR, x86_64 where none is given, or aarch64.

# tools_of PROCESSOR: makes `tools` what the names of its compiler and its binutils begin with, and
# `c` the folder of the archives of C that a proved program or library calls beside glibc: the kit's,
# or else those of packaging/, compiled
tools_of() {
    local it
    if [ "$1" = x86_64 ]; then
        tools='' c=$(dirname "$(rt doc)")/c
        return
    fi
    tools=$1-linux-gnu- c=$work/c_of_$1
    command -v "${tools}gcc" >/dev/null || {
        echo "${tools}gcc is missing (Debian: apt-get install gcc-aarch64-linux-gnu)" >&2
        exit 1
    }
    mkdir -p "$c"
    for it in heap process; do
        "${tools}gcc" -std=c11 -Wall -Wextra -Werror -O2 -fPIC -c "$top/packaging/$it.c" -o "$c/$it.o"
    done
    "${tools}ar" rcsD "$c/liblibc_c.a" "$c/heap.o"
    "${tools}ar" rcsD "$c/libos_c.a" "$c/process.o"
}

# made_in CRATE PROCESSOR: the folder of the crate's that has what is built for the processor
made_in() {
    case $2 in
        x86_64) echo "$top/crates/$1/out" ;;
        *) echo "$top/crates/$1/out/$2" ;;
    esac
}

# build_over_ci CRATE PROCESSOR TO WORD..: proves the crate once more, over the libraries that
# `rt ci` has proved and left beside it, and compiles it to the file TO; rattle gets the further
# words. What it has proved for one processor it need not prove for another. Fails if these libraries
# are not there, are of another command, or are older than a source
build_over_ci() {
    local crate=$1 to=$3 kit name rlib words=()
    rlib=$top/crates/order_laws/out/rlib/order_laws.rlib
    # (rt ci proves order_laws first, and it leaves no stamp; rt lib takes stamped libraries alone)
    if [ ! -d "$rlib" ] || compgen -G "$top/crates/*/out/rlib/stamp" >/dev/null ||
        is_older "$rlib" "$top"/crates/*/{src,specs,proofs}; then
        echo "the libraries below $crate are not there as they are to be: run rt ci"
        return 1
    fi
    kit=$(dirname "$(rt doc)")
    mkdir -p "$(dirname "$to")"
    for name in std $(sed -nE "s/^$crate( [^:]*)?: //p" "$top/crates.txt"); do
        rlib=$top/crates/$name/out/rlib/$name.rlib
        [ -d "$rlib" ] || rlib=$kit/rlibs/$name.rlib
        words+=(--extern "$name=$rlib")
    done
    for rlib in "$kit/rlibs" "$top"/crates/*/out/rlib; do
        words+=(-L "dependency=$rlib")
    done
    (cd "$top/crates/$crate" && rattle build --crate-name "$crate" "${words[@]}" \
        --antt-project "$kit/rattle/logic/antt-project.json" --logic-built "$kit/logic_built" \
        --incremental "$top/crates/$crate/out/over_ci" \
        --toolchain "$kit/toolchain" --backend llvm --jobs "$(jobs)" \
        --target "$2-unknown-linux-gnu" "${@:4}" -o "$to")
}

# jobs: for how many processors a proof is to be cut, at most four
jobs() {
    local count
    count=$(nproc)
    echo $((count < 4 ? count : 4))
}

# build_static CRATE [PROCESSOR]: makes `program` the crate's program linked without any shared
# library
build_static() {
    local processor=${2:-x86_64} object tools c
    object=$(made_in "$1" "$processor")/$1.o
    tools_of "$processor"
    if [ "$processor" = x86_64 ]; then
        build_proved "$1"
    elif [ -e "$object" ] && is_older "$object" "$top"/crates/*/src; then
        rm "$object"
    fi
    if [ ! -e "$object" ]; then
        # rt ci gives a program that an earlier run proved without its object
        build_over_ci "$1" "$processor" "$object" src/main.rt >"$work/build" 2>&1 || {
            cat "$work/build" >&2
            echo "$object is missing: remove $top/crates/$1/out/$1, and build again" >&2
            exit 1
        }
    fi
    program=$work/static-$processor
    "${tools}gcc" -static-pie -o "$program" "$object" "$c/libos_c.a" "$c/liblibc_c.a" \
        -Wl,-z,now -Wl,-z,relro -Wl,-z,noexecstack -s
}

# build_library [PROCESSOR]: makes `library` the static library, with the three functions over malloc
# in it, and `shared` the shared one, of which each shows the calls of the header alone; builds where
# the crate's is missing or older than a source, and ends the script where it cannot be built. A
# program finds out when it starts whether the processor has what it is compiled for, and a library
# does not: so this one is for every x86-64, which costs nothing that was measured (0.95 to 1.00 of
# the times for x86-64-v2, the default)
build_library() {
    local processor=${1:-x86_64} crate=$top/crates/latchsym_ffi archive objects tools c cpu=()
    archive=$(made_in latchsym_ffi "$processor")/liblatchsym_ffi.a
    tools_of "$processor"
    [ "$processor" != x86_64 ] || cpu=(--cpu x86-64)
    if [ ! -e "$archive" ] || is_older "$archive" "$top"/crates/*/{src,specs,proofs} "$top/tests/lib/library.sh"; then
        echo "${0##*/}: proving latchsym_ffi" >&2
        {
            build_over_ci latchsym_ffi "$processor" "$archive" src/lib.rt --crate-type staticlib "${cpu[@]}" ||
                { [ "$processor" = x86_64 ] && (cd "$crate" && rt lib --jobs "$(jobs)" "${cpu[@]}"); } ||
                echo 'no library is built'
        } 2>&1 | crates_as_they_go
        [ "$(tail -n 1 "$work/build")" != 'no library is built' ] || { cat "$work/build" >&2; exit 1; }
    fi
    objects=$work/objects-$processor
    library=$work/library-$processor/liblatchsym.a
    shared=$work/library-$processor/liblatchsym.so
    mkdir "$objects" "$work/library-$processor"
    (
        cd "$objects"
        "${tools}ar" x "$archive"
        "${tools}ar" x "$c/liblibc_c.a"
        # one object, so that the names of the functions over malloc are its own
        LC_ALL=C
        "${tools}ld" -r -o latchsym.o ./*.o
        "${tools}objcopy" --wildcard --keep-global-symbol='latchsym_*' latchsym.o
        "${tools}ar" rcsD "$library" latchsym.o
    )
    "${tools}gcc" -shared -o "$shared" -Wl,-soname,"liblatchsym.so.$(cut -d. -f1 "$top/VERSION")" -Wl,-z,now -Wl,-z,relro \
        -Wl,-z,noexecstack -Wl,--version-script="$top/packaging/liblatchsym.map" \
        -Wl,--whole-archive "$library" -Wl,--no-whole-archive
}
