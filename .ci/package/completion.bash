_fencer() {
    local command=${COMP_WORDS[1]} previous=${COMP_WORDS[COMP_CWORD - 1]} found
    if [ "$COMP_CWORD" -eq 1 ]; then
        found="${!_fencer_options[*]} $_fencer_own_options"
    elif [ -n "${_fencer_values[$previous]-}" ]; then
        found=${_fencer_values[$previous]}
    elif [[ $2 == -* ]]; then
        found=${_fencer_options[$command]-}
    elif [[ " $_fencer_filed " != *" $previous "* ]]; then
        mapfile -t COMPREPLY < <(compgen -f -X '!*.litmus' -- "$2"; compgen -d -- "$2")
        return
    fi
    mapfile -t COMPREPLY < <(compgen -W "${found-}" -- "$2")
}
complete -o default -o filenames -F _fencer fencer
complete -o default fencecheck
