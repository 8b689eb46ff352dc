# shellcheck shell=sh
# The scripts of this folder read this, in the repository's root.
. tools/head.sh

# built CRATE: the program of a crate, which is proved and built first if needed.
built() {
    if [ "$1" = rng_tool ]; then
        ./rng run <examples/first.script >/dev/null
    else
        (cd "crates/$1" && rt run </dev/null) >/dev/null 2>&1
    fi
    echo "crates/$1/out/$1"
}
