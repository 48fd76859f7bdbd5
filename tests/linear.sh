#!/usr/bin/env bash
# Compiles the programs of tests/linear over a copy of the crates. One whose second line says `//
# refused: WORD` must not compile, with an error that has this word; the other one must. Nor must
# that one compile over latch_table with an edit of tests/linear, whose first line names the word.
# Nothing is proved here.
set -euo pipefail
top=$(cd "$(dirname "$0")/.." && pwd)
. "$top/tests/lib/needs_kit.sh"
work=$(mktemp -d)
trap 'rm -rf "$work"' EXIT
git init -q "$work"
tar -C "$top" --exclude=out --exclude=must-fail -cf - HANDLES crates | tar -C "$work" -xf -
mkdir -p "$work/crates/linear/src"
{
    cat "$top/crates.txt"
    echo 'linear: latch_table latch_core word_layout order_laws'
} >"$work/crates.txt"
failed=0

# compile NAME WORD: whether the program is refused for this word, or compiles where there is none
compile() {
    local status=0 verdict
    (cd "$work/crates/linear" && rt try) >"$work/said" 2>&1 || status=$?
    if [ -z "$2" ] && [ "$status" = 0 ]; then
        verdict=compiles
    elif [ -n "$2" ] && [ "$status" = 1 ] && grep -q "error\[[a-z-]*$2" "$work/said"; then
        verdict='does not compile'
    else
        verdict="does not come to: ${2:-compiles}"
        failed=1
        cat "$work/said"
    fi
    echo "$1 $verdict"
}

for program in "$top"/tests/linear/*.rattle; do
    cp "$program" "$work/crates/linear/src/main.rt"
    compile "$(basename "$program" .rattle)" "$(sed -n 's|^// refused: ||p' "$program")"
done

# part LINE EDIT: what this line of an edit says
part() { sed -n "s/^$1: //p" "$2"; }

cp "$top/tests/linear/keeps_to_the_rules.rattle" "$work/crates/linear/src/main.rt"
for edit in "$top"/tests/linear/*.edit; do
    file=$work/crates/latch_table/$(part file "$edit")
    was=$(cat "$file")
    old=$(part old "$edit")
    [[ $was == *"$old"* ]] || { echo "$edit: its old text is not in $file" >&2; exit 1; }
    printf '%s\n%s\n%s' "${was%%"$old"*}" "$(part new "$edit")" "${was#*"$old"}" >"$file"
    compile "$(basename "$edit" .edit)" "$(part refused "$edit")"
    printf '%s\n' "$was" >"$file"
done
exit "$failed"
