# Read by the scripts that run a program: `top` is the repository, and `work` a folder that is gone
# when the script ends. Where PROGRAMS names a folder, the programs that stand there run, and none is
# built.
top=$(cd "$(dirname "${BASH_SOURCE[0]}")/../.." && pwd)
[ -n "${PROGRAMS:-}" ] || . "$top/tests/lib/needs_kit.sh"

work=$(mktemp -d)
trap 'rm -rf "$work"' EXIT

failed=0
# fail TEXT: says what is wrong; the script goes on, and ends with `exit $failed`
fail() {
    local script=${0##*/}
    echo "${script%.sh}: $1"
    failed=1
}

# stop TEXT: says what is wrong, and ends the script
stop() {
    fail "$1"
    exit 1
}

# waits FILE WANTED: waits up to 30 seconds until the file has what is wanted
waits() {
    local turn
    for turn in $(seq 1 1500); do
        cmp -s "$1" "$2" && return
        sleep 0.02
    done
    fail "$1 is $(cat "$1")"
}

# is_older FILE FOLDER..: whether FILE is older than something in a FOLDER, or than crates.txt
is_older() {
    [ -n "$(find "${@:2}" "$top/crates.txt" -newer "$1" -print -quit)" ]
}

# build CRATE: makes the crate's program `program`: the one that was proved or else the one in
# tests/out, if it is not older than a source; else builds it, without a proof unless PROVED is set.
# Ends the script if it cannot be built
build() {
    program=$top/crates/$1/out/$1
    if [ -n "${PROGRAMS:-}" ]; then
        program=$(realpath "$PROGRAMS")/$1
    elif [ -n "${PROVED:-}" ] && [ -d "$top/crates/$1" ]; then
        build_proved "$1"
    elif [ ! -x "$program" ] || is_older "$program" "$top"/crates/*/src; then
        build_unproved "$1"
    fi
}

# crates_as_they_go: copies its input to the file $work/build, and names each crate of which it says
# that something is proved
crates_as_they_go() {
    tee "$work/build" | awk -v script="${0##*/}" '
        /^[a-z]+ [a-z_0-9]+::.*: proved$/ {
            split($2, path, "::")
            if (path[1] != crate) { crate = path[1]; print script ": proving: " crate; fflush() }
        }' >&2
}

# build_proved CRATE: makes the crate's proved program `program`, and proves and builds it if it is
# missing or older than a source; one of tests/crates over what `rt ci` has proved on this machine
build_proved() {
    program=$top/crates/$1/out/$1
    if [ -d "$top/tests/crates/$1" ]; then
        program=$top/tests/out/proved/$1
        if [ ! -x "$program" ] || is_older "$program" "$top"/crates/*/src "$top/tests/crates"; then
            mkdir -p "$top/tests/out/proved"
            echo "${0##*/}: proving $1" >&2
            "$top/tests/lib/build.py" prove "$1" "$program" >&2 || exit 1
        fi
    elif [ ! -x "$program" ] || is_older "$program" "$top"/crates/*/src; then
        echo "${0##*/}: proving $1" >&2
        # (not every script has pipefail)
        { (cd "$top/crates/$1" && rt run -- --help) 2>&1 || echo 'rt run has failed'; } | crates_as_they_go
        [ "$(tail -n 1 "$work/build")" != 'rt run has failed' ] || { cat "$work/build" >&2; exit 1; }
    fi
}

# build_unproved CRATE: makes the crate's program in tests/out `program`, and builds it without a
# proof if it is missing or older than a source
build_unproved() {
    program=$top/tests/out/$1
    if [ ! -x "$program" ] || is_older "$program" "$top"/crates/*/src "$top/tests/crates"; then
        mkdir -p "$top/tests/out"
        echo "${0##*/}: building $1 without a proof, in two minutes" >&2
        "$top/tests/lib/build.py" build "$1" "$program.new" >&2 || exit 1
        mv "$program.new" "$program"
    fi
}
