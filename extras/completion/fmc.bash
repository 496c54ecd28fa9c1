# Completion of `fmc` in bash: source this file, for instance from ~/.bashrc.

_fmc() {
    local word=${COMP_WORDS[COMP_CWORD]} before=${COMP_WORDS[COMP_CWORD - 1]} options=
    COMPREPLY=()
    case $before in
        '<' | '>' | '>>')
            compopt -o filenames 2> /dev/null
            mapfile -t COMPREPLY < <(compgen -f -- "$word")
            return ;;
        --plan) mapfile -t COMPREPLY < <(compgen -W 'cyclic block' -- "$word"); return ;;
        --turns | --slice | --workers) return ;;
    esac
    if ((COMP_CWORD == 1)); then
        options='run trace replay check list make demo flow compile exec nodes'
    elif [[ ${COMP_WORDS[1]} == run || ${COMP_WORDS[1]} == trace ]]; then
        options='--turns --slice --workers --plan --vars'
    elif [[ ${COMP_WORDS[1]} == replay ]]; then
        options='--vars'
    elif [[ ${COMP_WORDS[1]} == exec ]]; then
        options='--turns --vars'
    elif [[ ${COMP_WORDS[1]} == demo ]] && ((COMP_CWORD > 2)); then
        options='--turns --slice --workers --plan'
    elif [[ ${COMP_WORDS[1]} == nodes ]] && ((COMP_CWORD > 2)); then
        options='--turns --plan --vars'
    fi
    mapfile -t COMPREPLY < <(compgen -W "$options" -- "$word")
}

complete -F _fmc fmc ./fmc
