#!/usr/bin/env bash
# Makes the first change of CONTRIBUTING.md in a copy of the repository, which is gone when the script
# ends: applies tests/first_change/no_offset.patch, has completions/write.py write what is made from the
# rows, builds the program without a proof and runs the case of the patch; then compares the pages and
# completions. Says after how many seconds the first output came, and how many files were touched.
set -euo pipefail
cd "$(dirname "$0")/.."
. tests/lib/needs_kit.sh
unset PROVED PROGRAMS
work=$(mktemp -d)
trap 'rm -rf "$work"' EXIT
tar --exclude=./.git --exclude=out --exclude=target --exclude=__pycache__ -cf - . | tar -xf - -C "$work"
cp -r "$work/." "$work.before"
trap 'rm -rf "$work" "$work.before"' EXIT
cd "$work"
SECONDS=0
git apply tests/first_change/no_offset.patch
completions/write.py >/dev/null
tests/quick.sh names_of_a_log_without_their_offsets
seconds=$SECONDS
tests/pages.sh
touched=$({ diff -rq --exclude=out --exclude=__pycache__ "$work.before" "$work" || true; } | sed 's/^Only in \(.*\): \(.*\)/\1\/\2/; s/^Files .* and \(.*\) differ/\1/' |
    while read -r path; do find "$path" -type f; done | wc -l)
echo "first_change: $touched files and CHANGELOG.md, and the first output after $seconds s"
[ "$touched" -lt 18 ]
