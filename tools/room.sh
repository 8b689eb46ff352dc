# The disk room that the proofs take. ./rng reads this before it builds, and to clean up; it sets top and say.
# shellcheck shell=sh

# A tree with all proofs has 6.5 GB in crates/*/out, of which the two programs need 6.
needed=6000000

# The disk room that the prover's files take, in kB.
kept_room() {
    du -sk "${top:?}"/crates/*/out 2>/dev/null | awk '{ sum += $1 } END { print sum + 0 }'
}

need_room() {
    free=$(df -Pk "$top" 2>/dev/null | awk 'NR == 2 { print $4 }')
    kept=$(kept_room)
    case $free in
    '' | *[!0-9]*) return ;;
    esac
    [ $((free + kept)) -lt $needed ] || return 0
    say "to prove the program takes $((needed / 1000000)) GB in $top/crates, and $(((free + kept) / 1000)) MB are there"
    say 'make room, or use ./rng try, which keeps nothing'
    exit 70
}

# Removes the prover's files. The programs stay, since they were built from the present sources.
clean() {
    before=$(kept_room)
    for folder in "$top"/crates/*/out; do
        [ ! -d "$folder" ] || find "$folder" -mindepth 1 -maxdepth 1 ! -name rng_tool ! -name key_audit \
            ! -name 'rng_tool.built_from*' ! -name 'key_audit.built_from*' -exec rm -rf {} +
    done
    find "$top/crates" -mindepth 2 -maxdepth 2 -name out -type d -empty -delete
    printf '%s MB given back; a program that was built stays\n' $(((before - $(kept_room)) / 1000))
}
