#!/usr/bin/env bash
# Tests what stands on the library for C: the package for Python, with its examples, installed by
# pip without a network, and what it says of random histories (RUNS and SEED set their number and the
# seed); the header for C++, under the sanitizers too; the crate for Rust; their example programs, over
# a listing of examples/ as `latchsym lookup` answers; what README.md has in each language; and the
# example for many machines on a cluster of two workers. What needs a tool that is not there is
# skipped, with a line that says so (lib/tools.sh). Needs g++ and python3.
set -euo pipefail
. "$(dirname "$0")/lib/program.sh"
. "$top/tests/lib/library.sh"
. "$top/tests/lib/tools.sh"
build_library
mkdir "$work/lib"
cp "$library" "$work/lib/liblatchsym.a"
cp "$shared" "$work/lib/liblatchsym.so.1"
export LATCHSYM_LIBRARY=$work/lib/liblatchsym.so.1 LATCHSYM_LIB_DIR=$work/lib PYTHONDONTWRITEBYTECODE=1

# same PROGRAM..: the program finds what `latchsym lookup` does
same() {
    local words
    mapfile -t words < <(grep -oE '^0x[0-9a-f]+' "$top/examples/listings/alone.addresses")
    "$@" "$top/examples/listings/alone.kallsyms" "${words[@]}" |
        diff - <(grep '^0x' "$top/examples/listings/alone.expected")
}

# sample LANGUAGE: what README.md has in the language, over a listing of examples/ in place of the kernel's
sample() {
    awk -v head="In $1 (" '
        index($0, head) == 1 { is_here = 1 }
        is_here && /^    / { print substr($0, 5); has_begun = 1 }
        has_begun && /^[^ ]/ { exit }' "$top/README.md" | sed "s|/proc/kallsyms|$top/examples/listings/alone.kallsyms|"
}
addr=0xffffffff81000108
named=do_one+0x8/0x1f00

(cd "$top/python" && PYTHONPATH=src python3 -W error -m unittest --quiet) 2>"$work/out" || { cat "$work/out"; exit 1; }
PYTHONPATH=$top/python/src python3 "$top/tests/histories/of_python.py" "${RUNS:-500}" "${SEED:-1}"
# shellcheck disable=SC2016
if has 'python3 -m venv "$work/venv"' python3-venv; then
    cp -r "$top/python" "$work/python"
    "$work/venv/bin/python" -m pip --quiet --disable-pip-version-check --no-cache-dir install --no-index "$work/python"
    (cd "$work" && venv/bin/python -c 'import latchsym; latchsym.Table(4).close()')
    for licence in "$top"/LICENSE-*; do
        cmp "$licence" "$work"/venv/lib/python3*/site-packages/latchsym-*.dist-info/licenses/"${licence##*/}"
    done
fi
{ echo "addr = $addr; addresses = [addr]"; sample Python; echo 'assert answers[0].offset == 8'; } >"$work/sample.py"
[ "$(PYTHONPATH=$top/python/src python3 "$work/sample.py")" = $named ]
# and as installed into a prefix: the library in ~/.local/lib, and nothing that says where it is
mkdir -p "$work/home/.local/lib"
cp "$shared" "$work/home/.local/lib/liblatchsym.so.1"
[ "$(env -u LATCHSYM_LIBRARY -u PYTHONUSERBASE HOME="$work/home" PYTHONPATH="$top/python/src" python3 "$work/sample.py")" = $named ]
echo "bindings: Python: ok"

for options in -O2 "-g -fsanitize=address,undefined" "-g -fsanitize=thread"; do
    # shellcheck disable=SC2086
    if g++ -std=c++17 -Wall -Wextra -Wpedantic -Wshadow -Werror $options -I"$top/include" "$top/tests/cpp/bindings.cpp" \
        "$library" -lpthread -o "$work/bindings" 2>"$work/err"; then
        "$work/bindings"
    elif [ "$options" = -O2 ]; then
        cat "$work/err"
        exit 1
    fi
done
g++ -std=c++17 -Wall -Wextra -Wpedantic -Werror -I"$top/include" "$top/examples/cpp/lookup.cpp" "$library" -o "$work/lookup"
same "$work/lookup"
{
    printf '#include <%s>\n' fstream iostream iterator latchsym.hpp
    echo "int main() { const std::uint64_t addr = $addr;"
    sample C++17
    echo '}'
} >"$work/sample.cpp"
g++ -std=c++17 -Wall -Wextra -Wpedantic -Werror -I"$top/include" "$work/sample.cpp" "$library" -o "$work/sample"
[ "$("$work/sample")" = do_one ]
{
    printf '#include <%s>\n' latchsym.h stdio.h
    echo 'int main(void) { static uint8_t bytes[1 << 16];'
    echo "    const size_t len = fread(bytes, 1, sizeof bytes, stdin); const uint64_t addr = $addr;"
    sample C
    printf '%s\n' 'latchsym_catalog_close(&catalog);' '}'
} >"$work/sample.c"
gcc -Wall -Wextra -Werror -I"$top/include" "$work/sample.c" "$library" -o "$work/sample"
[ "$("$work/sample" <"$top/examples/listings/alone.kallsyms")" = do_one+0x8 ]
echo "bindings: C and C++: ok"

if has 'command -v cargo' cargo; then
    export CARGO_TARGET_DIR=$work/target
    (cd "$top/bindings/rust" && cargo build --quiet --offline --locked && cargo test --quiet --offline --locked) \
        >"$work/out" 2>&1 || { cat "$work/out"; exit 1; }
    (cd "$top/bindings/rust" && cargo package --quiet --offline --allow-dirty --list) >"$work/out"
    [ "$(grep -c '^LICENSE-' "$work/out")" = 2 ] || { echo 'bindings: the crate lacks its licences'; exit 1; }
    same "$work/target/debug/examples/lookup"
    {
        echo "fn main() -> Result<(), Box<dyn std::error::Error>> { let addr = ${addr}_u64;"
        sample Rust
        echo '    Ok(()) }'
    } >"$work/sample.rs"
    rustc --edition 2021 -L "$work/target/debug/deps" --extern "latchsym=$work/target/debug/liblatchsym.rlib" \
        -o "$work/sample" "$work/sample.rs"
    [ "$("$work/sample")" = $named ]
    # a library that is missing is said to be, with what to do
    for words in LATCHSYM_LIB_DIR=/none "-u LATCHSYM_LIB_DIR PKG_CONFIG=/none PKG_CONFIG_PATH=/none"; do
        # shellcheck disable=SC2086
        if (cd "$top/bindings/rust" && env $words cargo build --quiet --offline) 2>"$work/err"; then
            find /usr/lib /usr/lib64 /usr/local/lib -name liblatchsym.a | grep -q . || { echo "bindings: Rust: built of nothing"; exit 1; }
        elif ! grep -q 'liblatchsym.a' "$work/err" || ! grep -q 'LATCHSYM_LIB_DIR' "$work/err"; then
            cat "$work/err"
            exit 1
        fi
    done
    echo "bindings: Rust: ok"
fi

# shellcheck disable=SC2016
dask='for python in python3 /usr/bin/python3; do $python -c "import dask, distributed" && break; done'
if has "$dask" python3-dask python3-distributed; then
    # shellcheck disable=SC2154 # the test has set python
    PYTHON=$python PYTHONPATH=$top/python/src "$top/examples/fleet/compare.sh" 4 20000 100000
fi
