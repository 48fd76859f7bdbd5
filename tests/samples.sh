#!/usr/bin/env bash
# Runs the samples of the pages as they stand there, in the repository and in a release archive, as
# this user and, where this is root, as nobody: commands, and programs in C, C++, Python and Rust; and
# the examples that write folded stacks and a profile of pprof's. A sample over a listing of examples/
# prints what its page says. One over /proc/kallsyms prints the name that `latchsym lookup` does, or,
# to a user who sees no addresses there, why there is none. Needs g++, pkg-config and python3; without
# cargo the samples in Rust are passed over.
set -euo pipefail
. "$(dirname "$0")/lib/program.sh"
. "$top/tests/lib/library.sh"
. "$top/tests/lib/tools.sh"
build latchsym
build_library
version=$(cat "$top/VERSION")
"$top/release.sh" "$work" >"$work/out" 2>&1 || { cat "$work/out"; exit 1; }
tar -C "$work" -xf "$work/latchsym-$version-x86_64.tar.xz"
archive=$work/latchsym-$version-x86_64
# what nobody reads of the repository may lie where nobody may go
repository=$work/repository
mkdir -p "$repository" "$work/bin" "$work/lib" "$work/home"
cp -r "$top"/{README.md,docs,examples,include,python,bindings} "$repository"
cp "$program" "$work/bin"
cp "$library" "$work/lib/liblatchsym.a"
cp "$shared" "$work/lib/liblatchsym.so.1"
export HOME=$work/home CARGO_TARGET_DIR=$work/target PYTHONDONTWRITEBYTECODE=1 CARGO_HOME=${CARGO_HOME:-$HOME/.cargo} RUSTUP_HOME=${RUSTUP_HOME:-$HOME/.rustup}
chmod -R a+rX "$work"
samples=0
users=(me)
[ "$(id -u)" != 0 ] || users+=(nobody)

# block PAGE TEXT [BEHIND]: the first indented block of the page that has the text, or the one so many
# behind it
block() {
    awk -v text="$2" -v behind="${3:-0}" '
        function ends() {
            if (lines == "") return
            if (count || index(lines, text)) { if (count++ == behind) { printf "%s", lines; exit } }
            lines = ""
        }
        /^    / { lines = lines substr($0, 5) "\n"; next }
        /^$/ { next }
        { ends() }
        END { ends() }' "$1" | grep . || { echo "samples: $1 has no block with $2" >&2; exit 1; }
}

# as USER FOLDER COMMAND..: runs the command there as this user; both outputs are in $work/out
as() {
    local become=()
    [ "$1" = me ] || become=(setpriv --reuid=65534 --regid=65534 --clear-groups)
    (cd "$2" && "${become[@]}" "${@:3}") >"$work/out" 2>&1 </dev/null
}

# prints WHAT FOLDER WANTED COMMAND..: the command writes this to each user
prints() {
    local user
    for user in "${users[@]}"; do
        samples=$((samples + 1))
        as "$user" "$2" "${@:4}" || fail "$1 as $user: status $?"
        [ "$(cat "$work/out")" = "$3" ] || fail "$1 as $user prints $(cat "$work/out")"
    done
}

# tells WHAT FOLDER COMMAND..: the command names $addr by /proc/kallsyms, or says why it does not
tells() {
    local user wanted
    for user in "${users[@]}"; do
        samples=$((samples + 1))
        as "$user" / "$program" lookup --no-counts "$addr"
        wanted=$(sed -nE 's/^0x[0-9a-f]+ ([^+ ]+)[+].*/\1/p' "$work/out")
        [ -n "$wanted" ] || wanted=$(sed -nE 's/.*note: [^ ]*: //p' "$work/out")
        [ -n "$wanted" ] || fail "the program neither names $addr to $user nor says why not"
        as "$user" "$2" "${@:3}" || fail "$1 as $user: status $?"
        grep -qF -- "${wanted:-no name}" "$work/out" || fail "$1 as $user prints '$(cat "$work/out")', without '$wanted'"
    done
}

first=$(grep -m 1 ' _stext$' /proc/kallsyms | cut -d' ' -f1) || true
[ -n "$first" ] && [ $((16#$first)) != 0 ] || first=ffffffff81000000
addr=0x$(printf '%x' $((16#$first + 16)))

# includes NAME..: the lines that a sample of a page needs before it
includes() { printf '#include <%s>\n' "$@"; }

for tree in "$repository" "$archive"; do
    name=${tree##*/}
    case $name in
        repository)
            flags=(-I"$tree/include" "$work/lib/liblatchsym.a")
            export PATH=$work/bin:$PATH LATCHSYM_LIB_DIR=$work/lib
            python=(env PYTHONPATH="$tree/python/src" LATCHSYM_LIBRARY="$work/lib/liblatchsym.so.1" python3)
            page=$tree/README.md
            ;;
        *)
            # as its README says, from the top
            page=$tree/README.md
            (cd "$tree" && eval "$(block "$page" ./install.sh)") >/dev/null
            export PATH=$HOME/.local/bin:$PATH PKG_CONFIG_PATH=$HOME/.local/lib/pkgconfig
            unset LATCHSYM_LIB_DIR
            has 'command -v pkg-config' pkg-config || exit $failed
            read -ra flags < <(pkg-config --cflags --libs latchsym)
            # shellcheck disable=SC2016
            has 'python3 -m venv "$work/venv"' python3-venv || exit $failed
            (cd "$tree" && "$work/venv/bin/python" -m pip --quiet --disable-pip-version-check --no-cache-dir \
                install --no-index ./python)
            python=("$work/venv/bin/python")
            chmod -R a+rX "$work"
            ;;
    esac

    # commands; the archive's first stands in both pages
    [ "$name" = repository ] ||
        prints "$name: its first command" "$tree" "$(block "$page" 'bin/latchsym annotate' 1)" \
            bash -c "$(block "$page" 'bin/latchsym annotate')"
    cd "$top"
    prints "$name: Try it" "$tree" "$(block README.md 'latchsym lookup --kallsyms' 1)" \
        bash -c "$(block README.md 'latchsym lookup --kallsyms')"
    prints "$name: a script" "$tree/examples/listings" "$(cat "$tree/examples/scripts/init.expected")" \
        bash -c "$(block "$tree/examples/README.md" 'latchsym run')"
    for it in listings:basic:lookup logs:kasan:annotate; do
        IFS=: read -r folder sample command <<<"$it"
        prints "$name: examples/$folder" "$tree/examples/$folder" "$(cat "$tree/examples/$folder/$sample.expected")" \
            bash -c "$(block "$tree/examples/$folder/README.md" "latchsym $command" | sed "s/NAME/$sample/g")"
    done

    # profiles: of a file, and of this machine where perf may sample it
    profiles=$tree/examples/profiles
    prints "$name: folded stacks" "$profiles" "$(cat "$profiles/perf.folded")" \
        "${python[@]}" folded.py --kallsyms ../listings/alone.kallsyms perf.script
    with_protobuf=(env PYTHONPATH="$tree/python/src${PYTHONPATH:+:$PYTHONPATH}" LATCHSYM_LIBRARY="$work/lib/liblatchsym.so.1")
    # shellcheck disable=SC2016
    if has 'for it in python3 /usr/bin/python3; do $it -c "import google.protobuf" && break; done' python3-protobuf; then
        samples=$((samples + 1))
        (cd "$profiles" && "${with_protobuf[@]}" "$it" pprof.py --kallsyms ../listings/alone.kallsyms perf.script) >"$work/profile"
        "$top/tests/lib/pprof.py" "$work/profile" | cmp - "$profiles/perf.folded" || fail "$name: a profile of pprof's"
    fi
    # shellcheck disable=SC2016
    if has 'perf record -o "$work/perf.data" -a -g -- sleep 0.3 && perf script -i "$work/perf.data" -F comm,ip >"$work/perf.script"' linux-perf; then
        samples=$((samples + 1))
        "${python[@]}" "$profiles/folded.py" "$work/perf.script" >"$work/folded"
        [ "$(awk '{ count += $NF } END { print count + 0 }' "$work/folded")" = "$(grep -c '^[^[:space:]]' "$work/perf.script")" ] ||
            fail "$name: another number of samples than perf has"
        # the address that most samples were taken at
        leaf=$(awk 'is_first && /^[ \t]*ffff/ { print $1 } { is_first = /^[^ \t]/ }' "$work/perf.script" | sort | uniq -c | sort -n | awk 'END { print $2 }')
        leaf=$([ -z "$leaf" ] || "$program" lookup --no-counts "0x$leaf" | sed -nE 's/^0x[0-9a-f]+ ([^+ ]+)[+].*/\1/p')
        grep -qE "[; ]${leaf:-.*}( \[[^]]*\])? [0-9]+$" "$work/folded" || fail "$name: no stack ends with $leaf"
    fi

    # C and C++
    {
        includes latchsym.h stdio.h
        echo "int main(void) { static uint8_t bytes[1 << 26]; const uint64_t addr = $addr;"
        echo '    FILE *file = fopen("/proc/kallsyms", "rb"); const size_t len = fread(bytes, 1, sizeof bytes, file);'
        block README.md latchsym_catalog_open
        printf '%s\n' 'latchsym_catalog_close(&catalog);' '}'
    } >"$work/sample.c"
    gcc -Wall -Wextra -Werror "$work/sample.c" "${flags[@]}" -o "$work/sample_c"
    tells "$name: README's sample in C" / "$work/sample_c"
    block "$tree/docs/C_LIBRARY.md" 'int main' >"$work/names.c"
    gcc -Wall -Wextra -Werror "$work/names.c" "${flags[@]}" -o "$work/names"
    tells "$name: C_LIBRARY's program" / bash -c "echo $addr | $work/names"
    {
        includes latchsym.h stdio.h stdlib.h
        echo 'int main(void) { struct latchsym_catalog catalog = {0}; struct latchsym_counts counts;'
        echo '    struct latchsym_listings listings = LATCHSYM_LISTINGS_INIT; uint64_t bad_line;'
        echo '    listings.kallsyms = (struct latchsym_place){(const uint8_t *)"0000000000000000 T a\n", 21};'
        echo '    latchsym_catalog_open(&listings, &catalog, &counts, &bad_line);'
        block "$tree/docs/C_LIBRARY.md" 'if (counts.symbols_note'
        block "$tree/docs/C_LIBRARY.md" latchsym_catalog_flatten
        echo '    latchsym_catalog_close(&catalog); free(regions); free(symbols); free(addresses); }'
    } >"$work/parts.c"
    gcc -Wall -Wextra -Werror "$work/parts.c" "${flags[@]}" -o "$work/parts"
    prints "$name: C_LIBRARY's notes and view" / \
        'kallsyms: every address is 0; read it as root (kernel.kptr_restrict)' "$work/parts"
    {
        includes latchsym.hpp fstream iostream
        echo "int main() { const std::uint64_t addr = $addr;"
        block README.md std::ifstream
        echo '}'
    } >"$work/sample.cpp"
    g++ -std=c++17 -Wall -Wextra -Wpedantic -Werror "$work/sample.cpp" "${flags[@]}" -o "$work/sample_cpp"
    tells "$name: README's sample in C++" / "$work/sample_cpp"

    # Python
    { echo "addr = $addr"; echo 'addresses = [addr]'; block README.md 'import array'; } >"$work/sample.py"
    tells "$name: README's sample in Python" / "${python[@]}" "$work/sample.py"
    { echo "addr = $addr"; block README.md latchsym.Follower; } >"$work/follow.py"
    tells "$name: README's follower in Python" / "${python[@]}" "$work/follow.py"
    block "$tree/python/README.md" '>>>' | grep '^>>> \|^\.\.\. ' | cut -c5- >"$work/first.py"
    prints "$name: the first sample of python" / \
        "$(block "$tree/python/README.md" '>>>' | grep -v '^>>> \|^\.\.\. ')" "${python[@]}" "$work/first.py"

    # Rust
    if has 'command -v cargo' cargo; then
        (cd "$tree/bindings/rust" && cargo build --quiet --offline --locked --lib --examples)
        {
            echo "fn main() -> Result<(), Box<dyn std::error::Error>> { let addr = ${addr}_u64;"
            block README.md latchsym::Listings
            echo '    Ok(()) }'
        } >"$work/sample.rs"
        block "$tree/bindings/rust/README.md" latchsym::Listings >"$work/first.rs"
        for it in sample first; do
            rustc --edition 2021 -L "$work/target/debug/deps" --extern "latchsym=$work/target/debug/liblatchsym.rlib" \
                -o "$work/${it}_rs" "$work/$it.rs"
        done
        chmod -R a+rX "$work"
        tells "$name: README's sample in Rust" / "$work/sample_rs"
        prints "$name: the first sample of bindings/rust" / "$(sed -n 's,.*println.*// ,,p' "$work/first.rs")" "$work/first_rs"
        tells "$name: the example of bindings/rust" / "$work/target/debug/examples/lookup" /proc/kallsyms "$addr"
        rm -r "$work/target"
    fi
done

# a listing that is saved by one who sees addresses names a log to anyone
cd "$top"
if grep -qvE '^0+ ' /proc/kallsyms; then
    # shellcheck disable=SC2016
    as me / bash -c "$(block README.md 'lookup $(grep')" && grep -qE '^0x[0-9a-f]+ [^ ]+\+0x0/' "$work/out" ||
        fail "the kernel's first address: $(cat "$work/out")"
    mkdir "$work/logs"
    echo "[<${addr#0x}>]" >"$work/logs/crash.log"
    bash -c "$(block docs/LISTINGS.md boot= | sed "s|/var/lib/latchsym|$work/saved|")" 2>"$work/out" ||
        fail "LISTINGS: saving: $(cat "$work/out")"
    mv "$work"/saved/*/kallsyms "$work/logs"
    chmod -R a+rX "$work/logs"
    text=$("$program" lookup --no-counts "$addr")
    prints 'LISTINGS: a log by a listing that was saved' "$work/logs" \
        "[<${addr#0x}>] ${text#* }" bash -c "$(block docs/LISTINGS.md 'crash.log')"
fi

# the repository's first command, over the program that is there
[ "$(PROGRAMS=$work/bin bash -c "$(block README.md tests/try.sh)")" = "$(block README.md 'bin/latchsym annotate' 1)" ] ||
    fail "README's command in the repository"
[ $failed = 1 ] || echo "samples: $samples runs of samples, as ${users[*]}, in the repository and in a release"
exit $failed
