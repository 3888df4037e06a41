# Completion of rpq for bash.
_rpq() {
    local current=${COMP_WORDS[COMP_CWORD]} previous=${COMP_WORDS[COMP_CWORD - 1]}
    local option given=" ${COMP_WORDS[*]} " left=()
    local options=(--workers --history --asks --replies --check --generate --two-way --paths --joins
        --save --from --endless --reader --faults)
    case $previous in
        --workers | --history | --generate) return ;;
    esac
    if [[ $current == -* ]]; then
        for option in "${options[@]}"; do
            case $option in
                "$current" | --reader | --faults) left+=("$option") ;;
                *) [[ $given == *" $option "* ]] || left+=("$option") ;;
            esac
        done
        mapfile -t COMPREPLY < <(compgen -W "${left[*]}" -- "$current")
    else
        mapfile -t COMPREPLY < <(compgen -f -- "$current")
    fi
}
complete -o filenames -F _rpq rpq
