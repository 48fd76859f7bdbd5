#!/usr/bin/env bash
# Compares the versions that files have with VERSION: those of the header, the pages, the packages,
# the list of changes, and of the program; and the licences of the packages with those at the top.
set -euo pipefail
. "$(dirname "$0")/lib/program.sh"
build latchsym
version=$(cat "$top/VERSION")
IFS=. read -r major minor patch <<<"$version"

# has FILE LINE: the file has a line of this version
has() {
    grep -qxF -- "$2" "$top/$1" || fail "$1 has no line: $2"
}

has include/latchsym.h "#define LATCHSYM_VERSION $((major * 10000 + minor * 100 + patch))"
has CHANGELOG.md "## $version"
has python/pyproject.toml "version = \"$version\""
has python/src/latchsym/__init__.py "__version__ = \"$version\""
has bindings/rust/Cargo.toml "version = \"$version\""
has bindings/rust/Cargo.lock "version = \"$version\""
has packaging/debian/changelog "latchsym ($version-1) unstable; urgency=medium"
for page in 1 3; do
    grep -q "^\.TH LATCHSYM $page [0-9-]* \"latchsym $version\" " "$top/docs/latchsym.$page" ||
        fail "docs/latchsym.$page is of another version"
done
for licence in LICENSE-MIT LICENSE-APACHE; do
    for folder in python bindings/rust; do
        cmp -s "$top/$licence" "$top/$folder/$licence" || fail "$folder has another $licence"
    done
done
[ "$("$program" --version)" = "latchsym $version" ] || fail "the program is $("$program" --version)"
[ $failed = 1 ] || echo "versions: all are $version"
exit $failed
