#!/usr/bin/env bash
# A writer that never rests and three readers for SECONDS (60), each answer compared with the replay
# of its generation. Ends with status 1 where one was wrong.
set -euo pipefail
seconds=${1:-60}
. "$(dirname "$0")/../tests/lib/program.sh"
build_proved measures

"$program" soak "$seconds" | tee "$work/seen"
grep -q ' wrong 0 ' "$work/seen"
