# Completion of rng-under for bash: `source completions/rng-under.bash`.
# shellcheck shell=bash

_rng_under() {
    local word=${COMP_WORDS[COMP_CWORD]} before=${COMP_WORDS[COMP_CWORD-1]} at
    local options='--prologue --seed --record --asked --most --supervise --preload --still --stats --help
        --sweep --only --jobs --seconds --input --json'
    local cases='empty early no-device EPERM ENOSYS ENOSYS-early nothing late: interrupted: reseed: fork: cut:'
    COMPREPLY=()
    # The words after the program's name are the program's own.
    for ((at = 1; at < COMP_CWORD; at++)); do
        case ${COMP_WORDS[at]} in
        --prologue | --seed | --record | --asked | --most | --only | --jobs | --seconds | --input | --json) at=$((at + 1)) ;;
        -*) ;;
        *) return ;;
        esac
    done
    case $before in
    --prologue) mapfile -t COMPREPLY < <(compgen -f -W "ready late $cases" -- "$word") ;;
    --only) mapfile -t COMPREPLY < <(compgen -W "lawful combined unlawful all $cases" -- "$word") ;;
    --seed | --most | --jobs | --seconds) ;;
    --record | --asked | --input | --json) mapfile -t COMPREPLY < <(compgen -f -- "$word") ;;
    *)
        if [[ $word = -* ]]; then
            mapfile -t COMPREPLY < <(compgen -W "$options" -- "$word")
        else
            mapfile -t COMPREPLY < <(compgen -c -- "$word")
        fi
        ;;
    esac
}
complete -o default -F _rng_under rng-under tools/under/rng-under
