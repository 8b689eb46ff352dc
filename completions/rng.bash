# Completion of rng, fenloth and rng-audit for bash: `source completions/rng.bash`.
# shellcheck shell=bash

_rng() {
    local word=${COMP_WORDS[COMP_CWORD]} at=$COMP_CWORD first=${COMP_WORDS[1]-}
    COMPREPLY=()
    if [[ $first = try ]]; then
        at=$((at - 1))
        first=${COMP_WORDS[2]-}
    fi
    if [[ ${COMP_WORDS[0]##*/} = rng-audit ]]; then
        at=$((at + 1))
        first=audit
    fi
    if [[ $first = audit && $at -eq 2 ]]; then
        mapfile -t COMPREPLY < <(compgen -W 'keys live line --help' -- "$word")
    elif [[ $at -eq 1 && ${COMP_WORDS[1]} = try ]]; then
        mapfile -t COMPREPLY < <(compgen -W 'run live check load vfork draw feed replay' -- "$word")
    elif [[ $at -eq 1 ]]; then
        mapfile -t COMPREPLY < <(compgen -W 'run live check load vfork draw feed replay audit try clean fetch prove --help --version' -- "$word")
    elif [[ $word = -* && $first = @(run|replay|audit) ]]; then
        mapfile -t COMPREPLY < <(compgen -W '--json --help' -- "$word")
    elif [[ $first = fetch ]]; then
        mapfile -t COMPREPLY < <(compgen -f -X '!*.tar.xz' -- "$word")
    elif [[ ${COMP_WORDS[COMP_CWORD-1]} = '<' ]]; then
        mapfile -t COMPREPLY < <(compgen -f -X '!*.script' -- "$word")
    fi
}
complete -o default -F _rng rng ./rng fenloth rng-audit
