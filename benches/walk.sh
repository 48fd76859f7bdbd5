#!/usr/bin/env bash
# Nodes visited a lookup and instructions a visited node, as callgrind counts them, in tables of 7,
# 200, 1000 and 65536 items inserted in shuffled order; beside them the same lookups in C over the
# same words (walk.c), the nodes that these visit in a red-black tree of pointers, and the ratio of
# both programs' user times, which take turns. Needs a C compiler and valgrind.
set -euo pipefail
. "$(dirname "$0")/../tests/lib/program.sh"
build_proved measures
cc -O2 -o "$work/walk" "$top/benches/walk.c"
TIMEFORMAT=%U

# instructions COMMAND..: of the whole program; its output is kept
instructions() {
    valgrind --tool=callgrind --callgrind-out-file="$work/profile" "$@" >"$work/out" 2>"$work/log" || return
    sed -n 's/^summary: //p; s/^totals: //p' "$work/profile" | tail -1
}

# instructions_a_round COMMAND..
instructions_a_round() {
    local one more
    one=$(instructions "$@" 1) || return
    more=$(instructions "$@" 6) || return
    echo $(((more - one) / 5))
}

# seconds COMMAND..: user time
seconds() { { time "$@" >"$work/out"; } 2>&1; }

for items in 7 200 1000 65536; do
    "$program" words "$items" >"$work/words"
    ours=$(instructions_a_round "$program" walk "$items")
    "$program" walk "$items" 1 >"$work/ours"
    theirs=$(instructions_a_round "$work/walk" "$work/words")
    "$work/walk" "$work/words" 1 >"$work/theirs"
    if [ "$(cut -d' ' -f1-10 "$work/ours")" != "$(cut -d' ' -f1-10 "$work/theirs")" ]; then
        echo "walk: $(cat "$work/ours") but in C $(cat "$work/theirs")" >&2
        exit 1
    fi
    rounds=$((8000000 / (items + 4000) + 60))
    for _turn in 1 2 3 4 5 6 7; do
        echo "$(seconds "$program" walk "$items" $((rounds + 1))) $(seconds "$program" walk "$items" 1)" \
            "$(seconds "$work/walk" "$work/words" $((rounds + 1))) $(seconds "$work/walk" "$work/words" 1)"
    done | awk '{ print ($1 - $2) / ($3 - $4) }' | sort -g | sed -n 4p >"$work/ratio"
    awk -v ours="$ours" -v theirs="$theirs" -v ratio="$(cat "$work/ratio")" '{
        visits = ($8 - 2 * $6 - 3 * ($4 - $6)) / 4
        printf "items %d: %.2f nodes a lookup (tree of pointers %.2f), %.2f instructions a node (C %.2f), %.2f times the time of C\n",
            $2, visits / $4, $12, ours / visits, theirs / visits, ratio
    }' "$work/theirs"
done
