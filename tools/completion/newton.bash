# Completion of `newton` for bash: source this file, or put it where bash-completion looks for it.
# After a mode stand names of files; the words of `gen` before its file are numbers.

_newton() {
    local word=${COMP_WORDS[COMP_CWORD]} mode=${COMP_WORDS[1]}
    local modes="run show pack gen backup restore check"
    COMPREPLY=()
    if [ "$COMP_CWORD" -eq 1 ]; then
        mapfile -t COMPREPLY < <(compgen -W "$modes" -- "$word")
        return
    fi
    case $mode in
        run) [ "$COMP_CWORD" -le 9 ] || return ;;
        gen) [ "$COMP_CWORD" -eq 4 ] || return ;;
        backup | restore | check) [ "$COMP_CWORD" -eq 2 ] || return ;;
        *) return ;;
    esac
    mapfile -t COMPREPLY < <(compgen -f -- "$word")
}

complete -o filenames -F _newton newton
