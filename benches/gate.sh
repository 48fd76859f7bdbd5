#!/usr/bin/env bash
# What the gate takes: `.ci/run` in a fresh clone of what is committed, on two processors
# (PROCESSORS=0-3 for four), with nothing kept of earlier proofs. Says for each crate the seconds, the
# processor seconds and the most memory of its proof and of its edits that must fail, and the seconds
# of each script. Needs python3; takes an hour and more.
#
#     benches/gate.sh [--page]
#
# With --page the table takes the place of benches/gate/times.txt, which has the crates and scripts
# that took 100 seconds or more.
set -euo pipefail
top=$(cd "$(dirname "$0")/.." && pwd)
work=$(mktemp -d)
trap 'rm -rf "$work"' EXIT
cd "$top"
git clone -q "$top" "$work/main"
status=0
(cd "$work/main" && CI=true exec taskset -c "${PROCESSORS:-0,1}" .ci/run </dev/null) >"$work/said" 2>&1 || status=$?
if [ "$status" -ne 0 ]; then
    cat "$work/said"
    exit "$status"
fi
sed -n '/^crate  /,$p' "$work/said" >"$work/table"
cat "$work/table"
[ "${1:-}" = --page ] || exit 0
awk '
    function took(line, parts, i, sum) {
        if (line ~ /^[0-9]+ s: /) return line + 0
        sum = 0
        for (i = split(line, parts, " "); i > 1; i--) if (parts[i] ~ /\//) sum += substr(parts[i], index(parts[i], "/") + 1)
        return sum
    }
    /^(crate|in all) / || took($0) >= 100' "$work/table" >benches/gate/times.txt
