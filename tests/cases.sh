#!/usr/bin/env bash
# Runs the program in each folder of tests/cases/, and compares what it writes, says and returns
# with the files that stand there, byte for byte. Of a case NAME/
#   args                    has the words of its command line, one a line
#   stdin                   is its standard input
#   stdout, stderr, status  are what is wanted: nothing, nothing and 0 where they are left out
# Other files are the ones that it reads. With names of cases it runs those alone.
set -euo pipefail
. "$(dirname "$0")/lib/program.sh"
build latchsym
cd "$top/tests/cases"
passed=0
failed=0
: >"$work/nothing"
echo 0 >"$work/success"

# differs NAME WANTED GOT: whether the two files differ; if so, how
differs() {
    cmp -s "$2" "$3" && return 1
    echo "cases: $1: $(basename "$3")"
    diff -u --label wanted --label got "$2" "$3" | cat -v || true
}

# or_else FILE OTHER: the file where it is there, else the other
or_else() {
    if [ -e "$1" ]; then echo "$1"; else echo "$2"; fi
}

# run NAME: the output, what is said and the status of a case in $work. A fault of the command line
# names the program by its first word.
run() {
    local args status=0
    mapfile -t args <"$1/args"
    (cd "$1" && exec -a latchsym "$program" "${args[@]}") <"$(or_else "$1/stdin" /dev/null)" \
        >"$work/stdout" 2>"$work/stderr" || status=$?
    echo "$status" >"$work/status"
}

[ $# -gt 0 ] || set -- *
for name; do
    [ -d "$name" ] || { echo "cases: there is no case $name" >&2; exit 2; }
    run "$name"
    wrong=0
    for file in stdout stderr; do
        ! differs "$name" "$(or_else "$name/$file" "$work/nothing")" "$work/$file" || wrong=1
    done
    ! differs "$name" "$(or_else "$name/status" "$work/success")" "$work/status" || wrong=1
    if [ $wrong = 1 ]; then failed=$((failed + 1)); else passed=$((passed + 1)); fi
done
echo "cases: $passed passed, $failed failed"
[ $failed = 0 ]
