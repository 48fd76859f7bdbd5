#!/usr/bin/env bash
# Builds the library for C, and runs the programs of tests/c and examples/c with it: the text of
# each number, null pointers, which refusal comes first, what is found of addresses, views on
# several threads, the table on threads, beside signals and at each stop of its writer, calls inside
# calls, readers that are added and taken back, readers that calls share, each order of such calls' steps,
# each request for memory refused, files that are read and each call for that refused, which polls read a
# listing, items replaced, what changes leave of a listing, code that is sampled
# while it comes and goes, a listing that is followed while it changes and named by its time, a table that
# such a listing outgrows, code that is noted beside it, the listings of examples/ as
# `latchsym lookup` answers, its logs as `latchsym annotate` writes them, and addresses of this
# machine's kernel as libbcc answers; under valgrind and sanitizers where these are there, and names of
# 700 bytes under gcc's own for addresses. Looks at the object code that a call for signal handlers
# takes no memory, and runs it on the oldest x86-64 where there is an emulator. Needs gcc.
set -euo pipefail
. "$(dirname "$0")/lib/program.sh"
. "$top/tests/lib/library.sh"
. "$top/tests/lib/tools.sh"
build_library

# compile NAME OPTION..: the program NAME.c of tests/c, with the static library
compile() {
    gcc -std=gnu11 -Wall -Wextra -Werror -O2 -I"$top/include" "$top/tests/c/$1.c" "$library" -lpthread -o "$work/$1" "${@:2}"
}

for name in numbers nulls order find changing view table adding placements claims pool stops nested replace refused following outgrown noted polls; do
    compile $name
    "$work/$name"
done
compile read
"$work/read" "$work/file"
if has 'command -v qemu-x86_64' qemu-user; then
    for name in find view adding replace; do
        qemu-x86_64 -cpu qemu64,-sse3 "$work/$name"
    done
fi
# is_right HEADERS NAME OPTION..: whether the program NAME.c of tests/c passes with the headers of this folder
is_right() {
    gcc -std=gnu11 -w -O2 -I"$1" "$top/tests/c/$2.c" "$library" -lpthread -o "$1/$2" "${@:3}" || exit 1
    timeout 60 "$1/$2" >"$work/lines" 2>&1
}
# is_unseen EDIT PROGRAM: whether the command PROGRAM passes with the headers that the edit makes, in the folder $wrong
is_unseen() {
    wrong=$work/wrong/include
    rm -rf "$work/wrong"
    mkdir -p "$wrong"
    cp "$top"/include/*.h "$wrong"
    "$top/tests/edits.py" --put "$work/wrong" "$1"
    if "$2"; then echo "clib: ${1##*/} is not seen"; fi
}
claims_pass() {
    is_right "$wrong" placements && is_right "$wrong" claims -fsanitize=thread && is_right "$wrong" pool &&
        is_right "$wrong" outgrown && is_right "$wrong" noted
}
polls_pass() { is_right "$wrong" polls; }

# What claims readers for a call, and when files are read again, is of the headers, and no proof sees
# what is wrong there: one of these does.
unseen=
for edit in $(grep -l '^file: include/latchsym_follow.h$' "$top"/tests/wrong_headers/*.edit); do
    unseen+=$(is_unseen "$edit" polls_pass)
done
if compile claims -g -fsanitize=thread 2>/dev/null; then
    "$work/claims"
    for edit in $(grep -L '^file: include/latchsym_follow.h$' "$top"/tests/wrong_headers/*.edit); do
        unseen+=$(is_unseen "$edit" claims_pass)
    done
fi
[ -z "$unseen" ] || { echo "$unseen"; exit 1; }
if has 'command -v valgrind' valgrind; then
    for name in nulls changing view refused; do
        valgrind -q --error-exitcode=1 --leak-check=full "$work/$name"
    done
    valgrind -q --error-exitcode=1 --leak-check=full "$work/read" "$work/file"
fi
compile table -g
compile adding -g
for name in nulls find changing view following outgrown noted polls; do
    if compile $name -g -fsanitize=address,undefined 2>/dev/null; then
        "$work/$name"
    fi
done
for sanitizer in address thread; do
    if compile table -g -fsanitize=$sanitizer 2>/dev/null; then
        "$work/table" 0
    fi
    if compile adding -g -fsanitize=$sanitizer 2>/dev/null; then
        "$work/adding"
    fi
    if compile pool -g -fsanitize=$sanitizer 2>/dev/null; then
        "$work/pool" 0.1 threads
    fi
done
if compile view -g -fsanitize=thread 2>/dev/null; then
    "$work/view"
fi

echo '#include <latchsym_follow.h>
int main() { latchsym_catalog c = {}; latchsym_catalog_close(&c); }' >"$work/guards.cc"
g++ -Wall -Wextra -Wpedantic -Werror -I"$top/include" "$work/guards.cc" "$library" -o "$work/guards"
"$work/guards"
echo '#include <latchsym_follow.h>
int main(void) { struct latchsym_listings none = LATCHSYM_LISTINGS_INIT; struct latchsym_followed files = LATCHSYM_FOLLOWED_INIT; return none.size != sizeof none || !latchsym_text(0) || !latchsym_read_file("/", &none.kallsyms) || !files.every; }' >"$work/guards.c"
for standard in c99 c11 c17; do
    gcc -std=$standard -Wall -Wextra -Wpedantic -Werror -I"$top/include" "$work/guards.c" "$library" -o "$work/guards"
    "$work/guards"
done

# watched SOURCE PROGRAM: compiled with the static library, under the sanitizer for addresses
watched() {
    gcc -std=gnu11 -Wall -Wextra -Werror -g -fsanitize=address -I"$top/include" "$1" "$library" -o "$2"
}

watched "$top/examples/c/lookup.c" "$work/lookup"
cd "$top/examples/listings"
for name in basic causes empty; do
    # shellcheck disable=SC2046
    "$work/lookup" $name.modules $name.kallsyms $(cat $name.addresses) >"$work/lines"
    grep '^0x' $name.expected | cmp "$work/lines" -
done
watched "$top/examples/c/annotate.c" "$work/annotate"
# (the example takes each address as it is, wants a listing of modules, and knows 16 digits)
for log in "$top"/examples/logs/*.log; do
    listings=basic
    [ ! -e "${log%.log}.kallsyms" ] || listings=${log%.log}
    [ -e "$listings.modules" ] && [ "$(basename "$log")" != i386.log ] || continue
    "$work/annotate" "$listings.kallsyms" "$listings.modules" <"$log" | cmp - "${log%.log}.exact"
done

# code that comes and goes, on threads that signals sample: as it is, and under two sanitizers
profiler() {
    gcc -std=gnu11 -Wall -Wextra -Werror -O2 -g -I"$top/include" "$top/examples/c/profiler.c" "$library" -lpthread -o "$work/profiler" "$@"
}
profiler
"$work/profiler"
for sanitizer in address thread; do
    if profiler -fsanitize=$sanitizer 2>/dev/null; then
        "$work/profiler"
    fi
done

# a listing that is followed while it is of no use, and while it is rewritten 1,000 times; fewer times under two sanitizers
follower() {
    gcc -std=gnu11 -Wall -Wextra -Werror -O2 -g -I"$top/include" "$top/examples/c/follow.c" "$library" -lpthread -o "$1" "${@:2}"
}
if command -v python3 >/dev/null; then
    build latchsym
    follower "$work/follow"
    python3 "$top/tests/c/follow.py" "$work/follow" "$program" 1000
    for sanitizer in address thread; do
        if follower "$work/follow_sanitize" -fsanitize=$sanitizer 2>/dev/null; then
            python3 "$top/tests/c/follow.py" "$work/follow_sanitize" "$program" 100
        fi
    done
fi

# the calls of libbcc, beside libbcc itself where Debian's libbpfcc-dev is there
bcc() {
    gcc -std=gnu11 -Wall -Wextra -Werror -O2 -g -I"$top/examples/c" -I"$top/include" "$top/tests/c/bcc.c" "${@:2}" -o "$1"
}
g++ -std=c++17 -Wall -Wextra -Wpedantic -Werror -fsyntax-only -DBCC_SYMS='"bcc_syms.h"' -I"$top/examples/c" \
    -I"$top/include" -x c++ "$top/tests/c/bcc.c"
if command -v python3 >/dev/null; then
    bcc "$work/bcc" -DBCC_SYMS='"bcc_syms.h"' "$library"
    bcc "$work/bcc_of_file" -DBCC_SYMS='"bcc_syms.h"' -DBCC_KALLSYMS='"kallsyms"' -fsanitize=address "$library"
    libbcc=()
    if bcc "$work/libbcc" -DBCC_SYMS='<bcc/bcc_syms.h>' -lbcc 2>/dev/null; then libbcc=("$work/libbcc"); fi
    python3 "$top/tests/c/bcc.py" "$work/bcc" "$work/bcc_of_file" "${libbcc[@]}"
fi

# names of 700 bytes: those of a module and of a symbol
long=$(printf '%0700d' 0)
echo "m$long 4096 1 - Live 0xffffffffc0000000" >"$work/modules"
printf 'ffffffffc0000010 t %s\t[%s]\n' "s$long" "m$long" >"$work/kallsyms"
"$work/lookup" "$work/modules" "$work/kallsyms" 0xffffffffc0000018 >"$work/lines"
echo "0xffffffffc0000018 s$long+0x8/0xff0 [m$long]" | cmp "$work/lines" -
# the program that the page begins with, over this listing in place of the kernel's
sed -n '/^    #include <latchsym_read.h>/,/^    }$/s/^    //p' "$top/docs/C_LIBRARY.md" |
    sed "s|/proc/kallsyms|$work/kallsyms|" >"$work/sample.c"
watched "$work/sample.c" "$work/sample"
echo 0xffffffffc0000018 nothing | "$work/sample" >"$work/lines"
echo "s$long+0x8" | cmp "$work/lines" -

if command -v python3 >/dev/null; then
    python3 "$top/tests/c/names.py" "$shared" "$top/examples/listings"
fi

# What the calls for signal handlers may reach, by the relocations of the calls: nothing that takes
# or gives memory.
objdump -dr --no-show-raw-insn "$top/crates/latchsym_ffi/out/liblatchsym_ffi.a" | awk '
    /^[0-9a-f]+ <.*>:$/ { from = $0; sub(/^[0-9a-f]+ </, "", from); sub(/>:$/, "", from); sub(/^\.text\.(unlikely\.)?/, "", from); known[from] = 1 }
    /R_X86_64_(PLT32|PC32|GOTPCREL|GOTPCRELX|REX_GOTPCRELX|64)/ {
        to = $0; sub(/.*R_X86_64_[A-Z0-9_]+[ \t]+/, "", to); sub(/[-+]0x[0-9a-f]+$/, "", to); sub(/^\.text\.(unlikely\.)?/, "", to)
        edges[from] = edges[from] "\n" to
    }
    END {
        count = split("latchsym_catalog_find latchsym_catalog_find_caller latchsym_catalog_find_many_nonnull latchsym_catalog_name_nonnull latchsym_catalog_modules latchsym_catalog_module latchsym_catalog_region latchsym_catalog_symbol latchsym_catalog_place_of_name_nonnull latchsym_catalog_sizes latchsym_view_find latchsym_view_find_caller latchsym_writer_step latchsym_reader_try_find latchsym_reader_find_name_nonnull latchsym_place_of_text latchsym_version", list, " ")
        for (i = 1; i <= count; i++) { if (!(list[i] in known)) { print "clib: no " list[i]; exit 1 } seen[list[i]] = 1 }
        for (i = 1; i <= count; i++) {
            parts = split(edges[list[i]], next_ones, "\n")
            for (j = 1; j <= parts; j++) if (next_ones[j] != "" && !(next_ones[j] in seen)) { seen[next_ones[j]] = 1; list[++count] = next_ones[j] }
        }
        for (name in seen) {
            if (name ~ /alloc|free|realloc|mmap|sbrk/) { print "clib: a call for signal handlers reaches " name; bad = 1 }
            if (!(name in known) && name !~ /^(mem(move|cpy|set|cmp)|bcmp|\..*)$/) { print "clib: a call for signal handlers reaches " name; bad = 1 }
        }
        if (!bad) print "clib: calls for signal handlers reach " count - 17 " other names, none that takes memory"
        exit bad
    }'
