# Takes programs from a release, and compares them with those that are proved here. ./rng reads this file for its words
# fetch and prove, and sets top, say and build.
# shellcheck shell=sh

fetched=out/fetched

# read_archive FILE: copies the release's description and its programs into $room. No name in the archive becomes a path
# here.
read_archive() {
    for tool in tar xz; do
        command -v $tool >/dev/null || {
            say "$tool is not found, which unpacks the archive"
            exit 70
        }
    done
    for name in RELEASE rng_tool key_audit; do
        tar -xJO --force-local -f "$1" --wildcards "fenloth-*/lib/fenloth/$name" >"$room/$name" 2>"$room/said" || {
            say "$1 is no whole release of fenloth: $(sed q "$room/said" | LC_ALL=C tr -c ' -~\n' '?')"
            exit 3
        }
    done
}

# released WORDS: the release's text after these words, on one line.
released() {
    sed -n "s/^$1 //p" "$room/RELEASE" | LC_ALL=C tr -c ' -~\n' '?' | head -n 1
}

# fetch FILE: takes the programs of the release, if they are whole and were built from the sources of this tree.
fetch() {
    if [ ! -f "$1" ] || [ ! -r "$1" ]; then
        refuse "there is no file '$1' to be read: fetch takes the archive of a release"
    fi
    room=$(mktemp -d)
    trap 'rm -rf "$room"' EXIT
    trap 'exit 70' INT TERM HUP
    read_archive "$1"
    for name in rng_tool key_audit; do
        choose "$name"
        if [ "$(released "program $name")  -" != "$(sha256sum <"$room/$name")" ]; then
            say "$1 is damaged: $name has another sum than in its RELEASE"
            exit 3
        fi
        if [ "$(released "sources $name")  -" != "$(sum_of_sources)" ]; then
            say "$1 has programs of other sources than these: it is fenloth $(released fenloth), with the tag $(released tag)"
            exit 70
        fi
    done
    keep_fetched
}

keep_fetched() {
    mkdir -p "${top:?}/$fetched" || {
        say "$top/$fetched cannot be made"
        exit 70
    }
    for name in rng_tool key_audit; do
        choose "$name"
        use "$fetched/$name"
        rm -f "${stamp:?}"
        cp "$room/$name" "${program:?}.new"
        chmod 755 "$program.new"
        mv "$program.new" "$program"
        is_built_from "$(sum_of_sources)"
        say "$name: ${elsewhere:?}"
    done
    say "they are in $top/$fetched, and are used if none was proved here; ./rng prove proves them here and compares"
}

# prove_and_compare: proves and builds both programs if that is not done yet, and reports whether the fetched ones are
# equal.
prove_and_compare() {
    status=0
    for name in rng_tool key_audit; do
        choose "$name"
        if seems_current || is_current; then
            say "$name was proved and built here before"
        else
            need_room
            build
        fi
        compare || status=1
    done
    return "$status"
}

# Compares the program that was proved here with the one that was fetched.
compare() {
    other=$top/$fetched/$name
    if [ ! -f "$other" ]; then
        say "$name: there is no fetched program to compare it with"
    elif [ "$(cut -d' ' -f1 "$other.built_from" 2>/dev/null)" != "$(sum_of_sources | cut -d' ' -f1)" ]; then
        say "$name: the program that was fetched is of other sources, and is not compared"
    elif cmp -s "$program" "$other"; then
        say "$name: proved here, and the release has the same bits"
    else
        say "$name: the release has OTHER BITS than the program that was proved here: $(cmp "$program" "$other" 2>&1 || :)"
        rm -f "$other".built_from*
        mv "$other" "$other.other_bits"
        say "$program was proved here and is used; the other program is now $other.other_bits, and is not"
        return 1
    fi
}
