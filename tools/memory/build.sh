# build NAME: compiles NAME.c of this folder if the program is older than its sources, and sets `built`, the program's
# path. tools/memory/precursors and audit read this, and set `here`, this folder.
# shellcheck shell=sh
build() {
    built=${here:?}/out/$1
    if [ -x "$built" ] && [ -z "$(find "$here/$1.c" "$here/image.h" -newer "$built")" ]; then
        return
    fi
    if ! command -v "${CC:-cc}" >/dev/null; then
        echo "$1: a C compiler is needed: apt-get install gcc libc6-dev" >&2
        exit 2
    fi
    mkdir -p "$here/out" || exit 2
    # Built for this processor alone, the program is several times faster.
    "${CC:-cc}" -std=gnu11 -O3 -march=native -pthread -Wall -Wextra -Wno-psabi -o "$built.$$" "$here/$1.c" ||
        "${CC:-cc}" -std=gnu11 -O3 -pthread -Wall -Wextra -Wno-psabi -o "$built.$$" "$here/$1.c" || exit 2
    mv "$built.$$" "$built"
}
