# Reads the words of ./rng, and reports a fault in them. ./rng reads this for all words but run, live, check and
# replay alone; it sets top, usage and say.
# shellcheck shell=sh

self=./rng
! is_installed || self=rng
audit_usage='usage: rng audit keys | rng audit live T | rng audit live C.E | rng audit line C.E'

# refuse TEXT: prints this text, and then the usage line.
refuse() {
    say "$(printf '%s' "$1" | LC_ALL=C tr -c ' -~' '?')"
    printf '%s\n' "${usage:?}" >&2
    exit 2
}

# In decimal, without zeros in front.
is_number() {
    case $1 in
    '' | *[!0-9]* | 0?*) return 1 ;;
    esac
}

is_event() {
    case $1 in
    *.*) is_number "${1%%.*}" && is_number "${1#*.}" ;;
    *) return 1 ;;
    esac
}

# number NAME WORD LEAST MOST: the word is one of these numbers.
number() {
    if ! is_number "$2" || [ "${#2}" -gt 10 ] || [ "$2" -lt "$3" ] || [ "$2" -gt "$4" ]; then
        refuse "$1 is a number from $3 to $4, without zeros in front, and not '$2'"
    fi
}

# numbers COMMAND COUNT NAMES WORDS..: COUNT words follow the command.
numbers() {
    [ $# -eq $(($2 + 4)) ] || refuse "$1 takes $2 numbers, $3, and no other words"
}

# take_files COMMAND FILES..: after a command's own words come files that can be read; - is standard input.
take_files() {
    command=$1
    shift
    for file; do
        case $file in
        -) continue ;;
        -*) refuse "$command has no option '$file'" ;;
        esac
        [ -e "$file" ] || refuse "there is no file '$file': $command takes files, or reads standard input"
        if [ -d "$file" ] || [ ! -r "$file" ]; then
            say "$file cannot be read"
            exit 3
        fi
        case $file in
        *.gz)
            gzip -t -- "$file" || {
                say "$file cannot be unpacked"
                exit 3
            }
            ;;
        esac
    done
}

# read_audit WORDS..: the words of the audit. Sets words, and how many they are.
read_audit() {
    usage=$audit_usage
    case ${1-} in
    keys) taken=1 ;;
    live) is_number "${2-}" || is_event "${2-}" || refuse "live takes a stamp, T, or a line's caller and event, C.E, and not '${2-}'" ;;
    line) is_event "${2-}" || refuse "line takes a line's caller and event, C.E, and not '${2-}'" ;;
    '') refuse 'which audit is missing' ;;
    *) refuse "'$1' is no audit" ;;
    esac
    words=$1
    [ "$taken" -eq 1 ] || words="$1 $2"
    shift "$taken"
    take_files "audit ${words%% *}" "$@"
}

# read_words WORDS..: exits if no program takes these words. Sets words to the program's own words, and taken to the
# number of words that are no files.
read_words() {
    words=$* taken=$#
    case ${1-} in
    run | check | replay)
        words=$1 taken=1
        shift
        take_files "$words" "$@"
        ;;
    live) [ $# -eq 1 ] || refuse 'live takes no files and no other words: it reads standard input' ;;
    load)
        numbers load 3 'START CALLERS EVENTS' "$@"
        number START "$2" 0 4294967295
        number CALLERS "$3" 1 64
        number EVENTS "$4" 1 1000
        ;;
    vfork)
        numbers vfork 3 'POINT ATTEMPT N' "$@"
        number POINT "$2" 1 4
        number ATTEMPT "$3" 1 2
        number N "$4" 1 1048576
        ;;
    draw)
        numbers draw 2 'C K' "$@"
        number C "$2" 0 4294967295
        number K "$3" 1 1000
        ;;
    feed)
        numbers feed 3 'START FEEDERS SAMPLES' "$@"
        number START "$2" 0 4294967295
        number FEEDERS "$3" 1 16
        number SAMPLES "$4" 1 10000
        ;;
    audit)
        choose key_audit
        shift
        taken=2
        read_audit "$@"
        taken=$((taken + 1))
        ;;
    '') refuse 'which command is missing' ;;
    --version) refuse "$1 takes no other words, and does not follow try" ;;
    *) refuse "'$1' is no command; $self --help lists them" ;;
    esac
}

# need_sources WORDS..: refuses words that need sources in an installed copy, which has none.
need_sources() {
    case ${1-} in
    try | clean | fetch | prove)
        ! is_installed || refuse "'$1' takes the sources, and this copy is installed: it is a word of ./rng there"
        ;;
    esac
}

# read_own WORDS..: exits if these are not words of ./rng itself that build or keep programs.
read_own() {
    [ "${mode:?}" = prove ] || refuse "$1 does not follow try"
    case $1 in
    clean | prove) [ $# -eq 1 ] || refuse "$1 takes no other words" ;;
    fetch) [ $# -eq 2 ] || refuse 'fetch takes one file, the archive of a release' ;;
    esac
}

# show FILES..: prints the files, one after the other.
show() {
    for file; do
        case $file in
        -) cat ;;
        *.gz) gzip -dc -- "$file" ;;
        *) cat -- "$file" ;;
        esac
    done
}

# hint FILE: prints why a script may have been refused, by its first lines. Standard input cannot be read again.
hint() {
    [ "$1" != - ] || return 0
    first=$(show "$1" | head -c 100 | LC_ALL=C tr -d '\0' | sed q)
    third=$(show "$1" | LC_ALL=C sed -n '3{p;q;}' | head -c 100 | LC_ALL=C tr -c ' -~\n' '?')
    case $first in
    '')
        [ "$(show "$1" | head -c 1 | wc -c)" -gt 0 ] || say "$1 is empty"
        ;;
    *"$(printf '\r')") say "$1 has lines that end in CR LF; a script's lines end in LF: tr -d '\\r' < FILE" ;;
    'rngtranscript '*) say "$1 is a transcript: a script comes first, and check and replay take its transcript as the next file" ;;
    'rngscript '[123]) [ "$third" = 'caller 0' ] || say "line 3 of $1 has to be 'caller 0', and is '$third'" ;;
    esac
}
