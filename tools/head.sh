# The help of a script is the comment at its head. The scripts of bench/ and .ci/, and some of tools/, read this.
# shellcheck shell=sh

# refuse_words SCRIPT FAULT: ends with a line that names this fault of the words.
refuse_words() {
    printf '%s: %s; --help shows the words\n' "${1##*/}" "$2" >&2
    exit 2
}

# take_help SCRIPT WORDS..: if a word asks for help, prints the script's head and ends.
take_help() {
    script=$1
    shift
    for word; do
        case $word in
        -h | --help)
            sed -n '2,/^set /s/^# \{0,1\}//p' "$script"
            exit 0
            ;;
        esac
    done
}

# take_words SCRIPT KNOWN WORDS..: the same, and refuses a word that is not in KNOWN.
take_words() {
    known=$2 script=$1
    shift 2
    take_help "$script" "$@"
    for word; do
        case $word in
        '' | *[!a-z-]*) refuse_words "$script" "there is no word '$word'" ;;
        esac
        case " $known " in
        *" $word "*) ;;
        *) refuse_words "$script" "there is no word '$word'" ;;
        esac
    done
}
