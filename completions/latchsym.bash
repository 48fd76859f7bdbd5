# Completion of latchsym(1) for bash.

_latchsym() {
    local word=${COMP_WORDS[COMP_CWORD]} before=${COMP_WORDS[COMP_CWORD - 1]} options
    # `--modules=FILE` comes as three words
    if [ "$word" = = ]; then
        word=
    elif [ "$before" = = ]; then
        before=${COMP_WORDS[COMP_CWORD - 2]}
    fi
    COMPREPLY=()

    if [ "$COMP_CWORD" = 1 ]; then
        mapfile -t COMPREPLY < <(compgen -W 'annotate lookup address check record trace run help -h --help -V --version' -- "$word")
        return
    fi
    case ${COMP_WORDS[1]} in
        annotate) options='--kallsyms --modules --regions --kernel --history --at --callers --exact --offset --follow -h --help' ;;
        lookup) options='--modules --kallsyms --regions --kernel --history --at --modules-from-symbols --addresses --callers --offset --json --no-counts -h --help' ;;
        address) options='--kallsyms --modules --regions --kernel --history --at --offset --json --no-counts -h --help' ;;
        check) options='--modules --kallsyms --regions --kernel --history --at -h --help' ;;
        record) options='--kallsyms --append -h --help' ;;
        trace) options='--steps -h --help' ;;
        run) options='--modules --kallsyms --regions --kernel --readers -h --help' ;;
        help)
            mapfile -t COMPREPLY < <(compgen -W 'annotate lookup address check record trace run help' -- "$word")
            return
            ;;
        *) return ;;
    esac
    case $before in
        --kallsyms | --modules | --regions | --history | --addresses)
            compopt -o default
            return
            ;;
        --kernel)
            mapfile -t COMPREPLY < <(compgen -W '_stext' -- "$word")
            return
            ;;
        --at | --offset | --readers) return ;;
    esac
    if [ "${COMP_WORDS[COMP_CWORD - 2]}" = --kernel ]; then
        mapfile -t COMPREPLY < <(compgen -W '_end _einittext _etext' -- "$word")
    elif [[ $word = -* || ${COMP_WORDS[1]} = lookup || ${COMP_WORDS[1]} = address ]]; then
        mapfile -t COMPREPLY < <(compgen -W "$options" -- "$word")
    else
        compopt -o default
    fi
}
complete -F _latchsym latchsym
