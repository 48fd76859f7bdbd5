#!/usr/bin/env bash
# Compares what the crate histories says of random histories and lines of logs with what a plain slow
# program finds by the rules: 4,000 histories with a fixed seed (RUNS and SEED set others). Then what
# commands write with --history, with what they write with the listing of that time. Needs python3.
set -eu
. "$(dirname "$0")/lib/program.sh"
command -v python3 >/dev/null || { echo "histories: python3 is not installed"; exit 1; }
PROVED= build history_answers
python3 "$top/tests/histories/compared.py" "$program" "${RUNS:-4000}" "${SEED:-1}"
build latchsym
python3 "$top/tests/histories/commands.py" "$program" "$((${RUNS:-4000} / 4))" "${SEED:-1}"

# an example adds BPF programs, as perf saw them come and go, to a history
examples=$top/examples/histories
awk -f "$examples/bpf.awk" "$examples/bpf.perf" "$examples/history" >"$work/bpf"
printf '%s: [<ffffffffc0005010>]\n' 8.200000 8.500000 9.500000 | "$program" annotate --history "$work/bpf" >"$work/named"
printf '8.500000: [<ffffffffc0005010>] bpf_prog_7be49e3934a125ba_count+0x10/0x1000 [bpf]\n' |
    cmp -s - <(grep bpf_prog "$work/named") || { echo "histories: a BPF program: $(cat "$work/named")"; exit 1; }
