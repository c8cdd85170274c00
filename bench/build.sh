#!/bin/sh
# build.sh [--try] FOLDER [NAME..]: builds the programs of bench/programs, or those that are named,
# in FOLDER, which is made where it isn't there, and prints their paths,
# FOLDER/crates/NAME/out/NAME. Says which ones don't build and why, and ends with 1 where there are
# any. With --try nothing is proved or built: each program is only read, compiled and begun. That
# takes about a minute each, and shows whether a name has moved.
#
# A program is a main.rt over the libraries that programs/uses.txt lists. It stands here as text and
# is built in a folder outside the repository, over a copy of the crates: the test command reads
# every .rt file, and nothing of bench/ is proved or timed in it. From nothing each crate below is
# proved first, which takes as long as `./dta` takes to build.
bench=$(dirname "$(readlink -f "$0")")
trying=
[ "${1:-}" != --try ] || { trying=1; shift; }
[ $# -gt 0 ] || { echo 'usage: build.sh [--try] FOLDER [NAME..]' >&2; exit 2; }
command -v rt >/dev/null || {
    echo 'build.sh: the command rt of the Rattle kit is not found' >&2
    exit 2
}
mkdir -p "$1" && work=$(cd "$1" && pwd) || exit 2
shift
all=$(sed -n "s/:.*//p" "$bench/programs/uses.txt")
[ $# -gt 0 ] || set -- $all

# What earlier builds made in the folder stays, so that a later one begins with it.
copy_crates() {
    for crate in "$bench"/../crates/*/; do
        copy=$work/crates/$(basename "$crate")
        rm -rf "$copy/src" "$copy/specs" "$copy/proofs"
        mkdir -p "$copy"
        for part in src specs proofs; do
            [ ! -d "$crate$part" ] || cp -R "$crate$part" "$copy"
        done
    done
    cp "$bench/../HANDLES" "$work"
    cat "$bench/../crates.txt" "$bench/programs/uses.txt" >"$work/crates.txt"
    for name in $all; do
        mkdir -p "$work/crates/$name/src"
        cp "$bench/programs/$name.txt" "$work/crates/$name/src/main.rt"
    done
}

# Without tables most programs end at once; that they are there, or begin, is all that is wanted.
builds() {
    cd "$work/crates/$1" || return 1
    if [ -n "$trying" ]; then
        rt try --seconds 5 >"$work/log" 2>&1 </dev/null
        grep -q '^run=' "$work/log" && ! grep -q '^run=none' "$work/log"
    else
        echo "build.sh: $1, below which each crate is proved first" >&2
        rm -f "out/$1"
        rt run >"$work/log" 2>&1 </dev/null
        [ -x "out/$1" ]
    fi
}

copy_crates
failed=
for name in "$@"; do
    if [ ! -f "$bench/programs/$name.txt" ]; then
        echo "build.sh: there is no program $name" >&2
        exit 2
    elif builds "$name"; then
        [ -z "$trying" ] && echo "$work/crates/$name/out/$name" || echo "$name compiles"
    else
        echo "FAILED: $name"
        grep -v -e '^checked ' -e 'proved$' "$work/log" | tail -n 20
        failed=1
    fi
done
[ -z "$failed" ]
