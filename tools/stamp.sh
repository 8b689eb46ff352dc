# The sources that the built program was made from. ./rng and .ci/run read this, and set top, the repository's folder.
#
# The stamp has three parts. `sum` has the hash of the sources, and that of the program that was proved and built from
# them. `folders` is a line of shell that sets `sources`, the source folders of the crates that the program is built from;
# `read` would take the list byte by byte, which costs most of a millisecond. `seen` is a short cut: its time is that of
# the last check that found the sum right. As long as no source, no folder of sources and no program was changed since,
# nothing is read. Every edit, checkout or copy sets the time of a file's last change to the clock, whatever time the
# file itself is given. Once something is newer, the sum decides, so a file that was only touched costs one check.
#
# An installed copy has no sources: its programs are beside ./rng, and the file RELEASE there describes them.
# A program that `./rng fetch` took from a release has its own stamp in out/fetched, and is used only if none was proved
# here.
# shellcheck shell=sh

is_installed() {
    [ -f "${top:?}/RELEASE" ]
}

# choose CRATE: sets the program that the functions below are about.
choose() {
    built=$1
    use "crates/$built/out/$built"
    ! is_installed || use "$built"
}

# use PATH: the program's place below top.
use() {
    own=$1
    program=$top/$own
    stamp=$program.built_from
}
choose rng_tool

# The crates that the program is built from, each after those that it needs itself, and the program last.
crates_in_order() {
    awk -F: -v built="$built" '
        function visit(name,    i, n, deps) {
            if (name in seen || !(name in needs)) return
            seen[name]
            n = split(needs[name], deps, " ")
            for (i = 1; i <= n; i++) visit(deps[i])
            print name
        }
        !/^#/ && NF > 1 { split($1, words, " "); needs[words[1]] = $2 }
        END { visit(built) }' "$top/crates.txt"
}

# The folders of code and definitions, on one line. They determine the program and its theorems. Proofs are left
# out: other proofs of the same contracts make no other program.
folders_of_sources() {
    for name in $(crates_in_order); do
        for folder in "crates/$name/src" "crates/$name/specs"; do
            [ ! -d "$top/$folder" ] || printf '%s ' "$folder"
        done
    done
    echo
}

sum_of_sources() (
    folders=$(folders_of_sources)
    cd "$top" || return
    # shellcheck disable=SC2086
    find crates.txt $folders -type f \( -name '*.rt' -o -name '*.antt' -o -name crates.txt \) \
        -exec sha256sum {} + | LC_ALL=C sort | sha256sum
)

# Whether the program is of the present sources, by the times of the files' last changes alone.
seems_current() {
    ! is_installed || { [ -x "$program" ]; return; }
    [ -x "$program" ] && [ -f "$stamp.seen" ] && [ -r "$stamp.folders" ] || return 1
    # shellcheck source=/dev/null
    . "$stamp.folders"
    # shellcheck disable=SC2086
    [ -z "$(cd "$top" && LC_ALL=C find "$own" crates.txt ${sources:?} -newercm "$own.built_from.seen" -print -quit 2>&1)" ]
}

# Whether the program is of the present sources, by all their bytes. A file that changes after the check began is newer
# than `seen`.
is_current() {
    [ -x "$program" ] && [ -f "$stamp" ] || return 1
    { : >"$stamp.$$" && { sleep 0.02 || sleep 1; }; } 2>/dev/null || :
    if [ "$(sum_of_sources) $(sha256sum <"$program")" = "$(cat "$stamp")" ]; then
        { echo "sources='$(folders_of_sources)'" >"$stamp.folders" && mv "$stamp.$$" "$stamp.seen"; } 2>/dev/null || :
    else
        rm -f "$stamp.$$"
        return 1
    fi
}

# is_built_from SUM: records that the program was proved and built from sources with this sum. Fails if the sources have
# another sum by now.
is_built_from() {
    [ "$(sum_of_sources)" = "$1" ] || return 1
    printf '%s %s\n' "$1" "$(sha256sum <"$program")" >"$stamp"
    is_current
}

# Whether there is a program of the present sources: one that was proved here, or else one that was fetched.
is_ready() {
    seems_current || is_current || is_fetched || {
        choose "$built"
        return 1
    }
}

is_fetched() {
    ! is_installed || return 1
    use "out/fetched/$built"
    seems_current || is_current
}

# The sum of all files that `rt ci` proves, tries and builds.
sum_of_crates() (
    cd "$top" || return
    find crates crates.txt HANDLES -name out -prune -o -type f -exec sha256sum {} + | LC_ALL=C sort | sha256sum
)

# The sum of all files of the tree, with a list of the executable ones. Files that .gitignore names are left out.
sum_of_tree() (
    cd "$top" || return
    {
        files_of_tree -exec sha256sum {} +
        files_of_tree -perm -100 -print
    } | LC_ALL=C sort | sha256sum
)

# files_of_tree ACTION..: find's action for each file.
files_of_tree() {
    find . \( -name .git -o -name out -o -name target -o -name __pycache__ \) -prune -o \
        -type f ! -name '*.log' "$@"
}

# The record of the last gate that passed, as .ci/run writes it: lines `crates SUM` and `tree SUM`, and `kit` with rt's version.
gate=out/gate

# passed NAME: the sum, or the other text, that the gate's record has under this name. Fails if there is none.
passed() {
    sed -n "s/^$1 //p" "$top/$gate" 2>/dev/null | grep .
}
