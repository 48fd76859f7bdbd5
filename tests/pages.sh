#!/usr/bin/env bash
# Compares what completions/write.py makes from the rows with the rows that `--help` shows, and with
# the completions and pages as they are; the options of the man page with `--help`; the library's page
# with its header; the stops of docs/TOUR.md with the code. Formats the pages without a warning, runs
# the examples of the program's and of README.md, follows the links of all pages, completes words in
# bash, and in fish where that is installed, and has zsh read its completion where it is. Has scripts
# say so where there is no kit. Needs man and groff (Debian has them in man-db and groff-base), and for
# the examples gcc, binutils and gzip.
set -euo pipefail
. "$(dirname "$0")/lib/program.sh"
. "$top/tests/lib/tools.sh"
for tool in man groff; do
    command -v $tool >/dev/null || { echo "pages: $tool is not installed (Debian: apt-get install man-db groff-base)"; exit 1; }
done
build latchsym
page=$top/docs/latchsym.1
completions=$top/completions

# same WHAT WANTED GOT: both have the same lines
same() {
    [ "$2" = "$3" ] || fail "$1: $(diff <(echo "$2") <(echo "$3") | sed -n 's/^< /lacks /p; s/^> /has too much: /p' | tr '\n' ';')"
}

# what the program has: its commands, and of a command (or of none) the options with their values
commands=$("$program" --help | sed -nE '/^Commands:/,/^$/s/^ +([a-z]+) .*/\1/p')
options_of() { "$program" "$@" --help | sed -nE '/^Options:/,/^$/s/^ +((-[a-zA-Z], )?--[a-z-]+( <[A-Z]+>)*).*/\1/p' | tr -d '<>' | sort; }
helped=$(for command in $commands; do [ "$command" = help ] || echo "$command"; done)
[ -n "$helped" ] || fail "the help has no commands"
same "the rows" "$(for command in $helped; do options_of "$command" | sed "/^-h, --help$/d; s/^/$command /"; done | sort)" \
    "$("$completions/write.py" --rows | sort)"
"$completions/write.py" --check >"$work/stale" || fail "completions/write.py would write $(cat "$work/stale")"

# the page
warnings=$({ groff -man -ww -Tutf8 -z "$page"; MANWIDTH=80 man --warnings -E UTF-8 -l -Tutf8 -Z "$page" >/dev/null; } 2>&1)
[ -z "$warnings" ] || fail "$warnings"
grep -n -- '--' "$page" | grep -v '^[0-9]*:\.\\"' >"$work/dashes" && fail "a - of the page without a backslash: $(cat "$work/dashes")"
groff -man -Tutf8 -P-cbou -rLL=400n "$page" >"$work/page"
section() { sed -n "/^$1\$/,/^[A-Z]/p" "$work/page"; }
section NAME | grep -q "^ *latchsym - " || fail "the page has no NAME"
tail -n 1 "$work/page" | grep -q "^$("$program" --version) " || fail "the page is of another version"
same "the commands of the page" "$(sort <<<"$commands")" \
    "$(section SYNOPSIS | sed -nE 's/^ +latchsym ([a-z]+) .*/\1/p' | sort -u)"
same "the options of the page" "$({ options_of; for command in $helped; do options_of "$command"; done; } | sort -u)" \
    "$(section OPTIONS | sed -nE 's/^ {7}(-.*)/\1/p' | sort -u)"

# the examples of the page, as it is read: `$ cat FILE` says what the file holds, and what a command
# writes stands below it
mkdir "$work/bin" "$work/examples"
ln -s "$program" "$work/bin/latchsym"
cp "$top/examples/listings/basic.modules" "$work/examples/modules"
cp "$top/examples/listings/basic.kallsyms" "$work/examples/kallsyms"
grep -v ext4 "$work/examples/kallsyms" >"$work/examples/System.map"
ln -s "$top/examples" "$work/examples/examples"
echo 'void demo_run(void) {}' | gcc -x c -c -o "$work/examples/demo.ko" -
mkdir -p "$work/examples/.debug/[kernel.kallsyms]/0123" "$work/examples/scripts"
cp "$work/examples/kallsyms" "$work/examples/.debug/[kernel.kallsyms]/0123"
mkdir "$work/examples/.debug/[kernel.kallsyms]/4567"
touch -d yesterday "$work/examples/.debug/[kernel.kallsyms]/4567/kallsyms"
# (what the kernel's script does of a line that ends in a name, an offset and a size)
printf '#!/bin/sh\nsed -E "s,.* ([a-z_]+)[+]0x9/0x1f00$,\\1 (init/one.c:8),"\n' >"$work/examples/scripts/decode_stacktrace.sh"
chmod +x "$work/examples/scripts/decode_stacktrace.sh"
examples=0
# example COMMAND: the command writes the lines of $work/wanted
example() {
    case $1 in
        '') ;;
        'cat '*) cp "$work/wanted" "$work/examples/${1#cat }" ;;
        *)
            examples=$((examples + 1))
            echo "$1" >>"$work/commands"
            (cd "$work/examples" && HOME=. PATH=$work/bin:$PATH bash -c "$1") >"$work/out" 2>&1 || fail "status $? of the example $1"
            cmp -s "$work/out" "$work/wanted" || fail "the example $1 writes $(cat "$work/out")"
            ;;
    esac
    : >"$work/wanted"
}
shown=
: >"$work/wanted"
while IFS= read -r line; do
    line=${line#       }
    case $shown in
        *[\\\|]) shown+=$'\n'$line; continue ;;
    esac
    case $line in
        '$ '*) example "$shown"; shown=${line#'$ '} ;;
        '') example "$shown"; shown= ;;
        *) [ -z "$shown" ] || echo "$line" >>"$work/wanted" ;;
    esac
done < <(section EXAMPLES)
for command in $helped; do
    grep -q "latchsym $command " "$work/commands" || fail "no example of $command"
done

# the recipes of docs/LISTINGS.md are among them
joined() { sed -z 's/\\\n */ /g; s/|\n */| /g; s/  */ /g'; }
joined <"$work/commands" >"$work/joined"
recipes=0
while IFS= read -r recipe; do
    recipes=$((recipes + 1))
    grep -qxF -- "$recipe" "$work/joined" || fail "no example of the page is the recipe $recipe"
done < <(awk '/^## Recipes/ { here = 1; next } /^## / { here = 0 } here && sub(/^    /, "")' "$top/docs/LISTINGS.md" | joined)
[ $recipes -ge 4 ] || fail "docs/LISTINGS.md has $recipes recipes"

# README.md: what it tries, from the top of the repository, and the logs that it begins with, of
# examples/logs and examples/histories
mapfile -t blocks < <(awk '/^## Try it/ { here = 1 } /^As root/ { here = 0 } here' "$top/README.md" |
    awk '/^    / { printf "%s%s", sep, substr($0, 5); sep = "\\n"; next } sep { print ""; sep = "" }')
[ ${#blocks[@]} = 2 ] || fail "README.md has ${#blocks[@]} blocks below Try it"
same 'what README.md tries' "$(printf '%b' "${blocks[1]}")" \
    "$(cd "$top" && PATH=$work/bin:$PATH bash -c "${blocks[0]//\\\\n/ }" 2>&1)"
same 'the logs of README.md' "$(cat "$top"/examples/logs/oops.{log,expected} "$top/tests/cases/an_example_of_a_history/stdout")" \
    "$(sed -n 's/^    \(\[ .*\)/\1/p' "$top/README.md")"
same 'the log of the archive'"'"'s README.md' "$(cat "$top/examples/logs/oops.expected")" \
    "$(sed -n 's/^    \(\[ .*\)/\1/p' "$top/packaging/archive.md")"
python3 "$top/tests/lib/links.py" "$top" >"$work/links" || fail "$(cat "$work/links")"

# docs/TOUR.md: the function of each stop is there
stops=0
while read -r file function; do
    stops=$((stops + 1))
    grep -qE "^ *(pub |pub\(crate\) )?(extern \"C\" )?fn $function\b" "$top/crates/$file" || fail "docs/TOUR.md: $file has no $function"
done < <(sed -nE 's/^([a-z_/]+\.rt) `(\w+)` \| .*/\1 \2/p' "$top/docs/TOUR.md")
[ $stops = 20 ] || fail "docs/TOUR.md has $stops stops"

# without the kit a script that builds says so, in one line
mkdir "$work/tools"
for tool in bash cat cp cut date dirname find grep mktemp realpath rm sed tr; do
    ln -s "$(command -v $tool)" "$work/tools"
done
for script in "bash .ci/run" "bash install.sh $work/prefix" "bash "tests/{cases,quick,try,linear,bindings,unproved_library,first_change}.sh \
    "$(python3 -c 'import sys; print(sys.executable)') tests/wrong_bodies.py --all"; do
    status=0
    # shellcheck disable=SC2086
    (cd "$top" && env -u PROGRAMS PATH="$work/tools" $script) >"$work/out" 2>&1 || status=$?
    [ $status = 1 ] && [ "$(wc -l <"$work/out")" = 1 ] && grep -q 'Rattle kit' "$work/out" ||
        fail "$script without the kit: status $status, $(cat "$work/out")"
done

# the page of the library, whose calls and numbers bindings/write.py makes
warnings=$({ groff -man -ww -Tutf8 -z "$top"/docs/latchsym{,-record}.[13]; } 2>&1)
[ -z "$warnings" ] || fail "$warnings"
groff -man -Tutf8 -P-cbou "$top/docs/latchsym-record.1" | tail -n 1 | grep -q "^$("$program" --version) " ||
    fail "the page of the recorder is of another version"
groff -man -Tutf8 -P-cbou -rLL=400n "$top/docs/latchsym.3" >"$work/page"
tail -n 1 "$work/page" | grep -q "^$("$program" --version) " || fail "the page of the library is of another version"

# bash: what is offered for the last word, and `files` where it is files
# shellcheck disable=SC2016
complete='
    . "$1"; shift
    compopt() { [ "$*" = "-o default" ] && echo files; }
    complete -p latchsym >/dev/null || echo "not registered"
    COMP_WORDS=("$@"); COMP_CWORD=$(($# - 1)); _latchsym
    printf "%s\n" "${COMPREPLY[@]}"'
# offers WANTED WORD..: what bash offers for the last of these words
offers() {
    same "what bash offers for ${*:2}" "$(tr ' ' '\n' <<<"$1")" \
        "$(bash --norc -c "$complete" bash "$completions/latchsym.bash" latchsym "${@:2}" | grep . | sort)"
}
offers '--help --version -V -h' -
offers "$(sort <<<"$commands")" help ''
offers '--help --steps -h' trace -
for words in 'check --modules' 'lookup --addresses =' 'run --regions = x' 'trace x' 'run x' 'annotate x'; do
    # shellcheck disable=SC2086
    offers files $words ''
done
offers '' run --readers ''
offers _stext lookup --kernel ''
offers _end lookup --kernel _stext _en
shells=bash
if has 'command -v zsh' zsh; then
    zsh -n "$completions/_latchsym" || fail "zsh does not read its completion"
    shells+=" zsh"
fi
if has 'command -v fish' fish; then
    in_shell() { fish --no-config -c 'source $argv[1]; complete -C $argv[2]' "$completions/latchsym.fish" "$1" | cut -f 1 | sort; }
    same "the commands that fish offers" "$(sort <<<"$commands")" "$(in_shell 'latchsym ')"
    same "the options that fish offers for trace" $'--help\n--steps' "$(in_shell 'latchsym trace --')"
    shells+=" fish"
fi
[ $failed = 1 ] || echo "pages: the man pages, one with $examples examples, and the completions ($shells)"
exit $failed
