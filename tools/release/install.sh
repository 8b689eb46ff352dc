#!/bin/sh
# Installs this release of fenloth into a folder, and removes it.
set -eu
umask 022

help() {
    cat <<'END'
usage: sh install.sh PREFIX
       sh install.sh uninstall PREFIX

Installs rng, fenloth (the same program), rng-audit, rng-under and more below PREFIX: in bin, lib/fenloth and share. It
checks the files' sums first, and overwrites no file that it did not install. An older release that is there is taken away
first. Try sh install.sh ~/.local, or as root sh install.sh /usr/local.

uninstall removes the files that were installed below PREFIX, and the folders that were made for them if nothing else is
in them. PREFIX/lib/fenloth/uninstall does the same.

Exit status: 0 done, 1 nothing was changed, or all changes were undone, 2 usage.
END
}

say() {
    printf 'install: %s\n' "$1" >&2
}

refuse() {
    say "$1"
    exit 1
}

case $0 in
*/*) here=$(cd "${0%/*}" && pwd -P) ;;
*) here=$(pwd -P) ;;
esac
own=lib/fenloth
list=$own/installed

# The files of the release, as paths below it.
files() {
    (cd "$here" && find bin lib share ! -type d -print | LC_ALL=C sort)
}

folders() {
    (cd "$here" && find bin lib share -type d -print | LC_ALL=C sort)
}

check_sums() {
    [ -f "$here/SUMS" ] || refuse "$here has no file SUMS: this is not the folder that the archive has"
    (cd "$here" && sha256sum --quiet -c SUMS) || refuse 'the archive is damaged, and nothing was installed'
}

# Without words each program ends with a usage line and status 2.
check_runs() {
    for name in rng_tool key_audit; do
        status=0
        said=$("$here/$own/$name" 2>&1 </dev/null) || status=$?
        [ "$status" -eq 2 ] || refuse "$name does not run here, and nothing was installed: $said"
    done
}

# No file of another origin is overwritten. Files of an older release are removed first.
check_free() {
    files | while IFS= read -r name; do
        if { [ -e "$prefix/$name" ] || [ -h "$prefix/$name" ]; } && ! grep -qsxF "f $name" "$prefix/$list"; then
            say "$prefix/$name is there already, and no release has put it there"
            exit 1
        fi
    done || refuse 'nothing was installed'
}

# make_folder PATH: makes the missing folders of PATH, and notes them in made, by their names below PREFIX, innermost
# last.
make_folder() {
    [ ! -d "$1" ] || return 0
    case $1 in
    ?*/*) make_folder "${1%/*}" || return 1 ;;
    esac
    mkdir "$1" || return 1
    made="${made}d ${1#"$prefix"/}
"
}

copy() {
    files | while IFS= read -r name; do
        printf 'f %s\n' "$name" >>"$prefix/$list"
        cp -P "$here/$name" "$prefix/$name" || exit 1
        if [ -h "$prefix/$name" ]; then
            continue
        elif [ -x "$prefix/$name" ]; then
            chmod 755 "$prefix/$name"
        else
            chmod 644 "$prefix/$name"
        fi
    done
}

install() {
    check_sums
    check_runs
    check_free
    if [ -f "$prefix/$list" ]; then
        say "taking away $(sed q "$prefix/$own/RELEASE" 2>/dev/null || echo 'the installed files') first"
        uninstall
    fi
    made=
    make_folder "$prefix/$own" || refuse "$prefix/$own cannot be made"
    printf '%s' "$made" >"$prefix/$list" || refuse "$prefix cannot be written"
    trap 'say "undoing all changes"; uninstall; exit 1' INT TERM HUP
    if ! { make_all && copy; }; then
        uninstall
        refuse "the files could not be copied below $prefix, and nothing is left of them"
    fi
    trap - INT TERM HUP
    say "$(sed q "$here/$own/RELEASE") is installed below $prefix"
    case :$PATH: in
    *:"$prefix/bin":*) ;;
    *) say "$prefix/bin is not on the PATH: PATH=\"$prefix/bin:\$PATH\"" ;;
    esac
}

make_all() {
    folders | while IFS= read -r name; do
        made=
        make_folder "$prefix/$name" || exit 1
        printf '%s' "$made" >>"$prefix/$list"
    done
}

# Files first, and then the folders that were made, the innermost first.
uninstall() {
    [ -f "$prefix/$list" ] || refuse "nothing of fenloth is installed below $prefix"
    if [ ! -w "$prefix/$own" ] || [ ! -w "$prefix/$list" ]; then
        refuse "$prefix cannot be written: nothing was taken away"
    fi
    kept=$(cat "$prefix/$list")
    printf '%s\n' "$kept" | sed -n 's/^f //p' | while IFS= read -r name; do
        rm -f "$prefix/$name"
    done
    rm -rf "${prefix:?}/$own"
    printf '%s\n' "$kept" | sed -n 's/^d //p' | LC_ALL=C sort -r | while IFS= read -r name; do
        case $name in
        /*) folder=$name ;;
        *) folder=$prefix/$name ;;
        esac
        rmdir "$folder" 2>/dev/null || [ ! -d "$folder" ] || say "$folder is kept: it has other files"
    done
}

# take_prefix PATH: an absolute path, whether or not it is there.
take_prefix() {
    case $1 in
    '' | -*) refuse "'$1' is no folder: sh install.sh --help" ;;
    /*) prefix=$1 ;;
    *) prefix=$(pwd -P)/$1 ;;
    esac
    while [ "$prefix" != / ] && [ "${prefix%/}" != "$prefix" ]; do prefix=${prefix%/}; done
}

case ${0##*/}:$#:${1-} in
*:1:-h | *:1:--help) help ;;
uninstall:0:)
    take_prefix "${here%/"$own"}"
    uninstall
    ;;
install.sh:2:uninstall)
    take_prefix "$2"
    uninstall
    ;;
install.sh:1:*)
    take_prefix "$1"
    install
    ;;
*)
    help >&2
    exit 2
    ;;
esac
