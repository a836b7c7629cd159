# Completion of difftest's words for bash: source this file, or put it where bash-completion looks, under the
# name difftest.
_difftest() {
    local current=${COMP_WORDS[COMP_CWORD]} previous=${COMP_WORDS[COMP_CWORD - 1]}
    COMPREPLY=()
    if [ "$COMP_CWORD" -eq 1 ]; then
        mapfile -t COMPREPLY < <(compgen -W 'pass check dump convert --help --version' -- "$current")
        return
    fi
    case ${COMP_WORDS[1]} in
    pass)
        if [[ $current == -* ]]; then
            [[ " ${COMP_WORDS[*]:2:COMP_CWORD-2} " == *' --sources '* ]] || COMPREPLY=(--sources)
            return
        fi
        ;;
    check)
        if [ "$previous" = --workers ]; then
            mapfile -t COMPREPLY < <(compgen -W '1 2 3 4 5 6 7 8' -- "$current")
            return
        elif [[ $current == -* ]]; then
            mapfile -t COMPREPLY < <(compgen -W '--workers --sources' -- "$current")
            return
        fi
        ;;
    convert)
        if [ "$previous" = --to ]; then
            mapfile -t COMPREPLY < <(compgen -W '1 2' -- "$current")
            return
        elif [[ $current == -* ]]; then
            COMPREPLY=(--to)
            return
        fi
        ;;
    dump) ;;
    *) return ;;
    esac
    compopt -o filenames 2>/dev/null
    mapfile -t COMPREPLY < <(compgen -f -- "$current")
}
complete -F _difftest difftest
