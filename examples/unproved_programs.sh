#!/bin/sh
# Keeps the unproved programs, for a first look and for the examples: out/unproved/ld, ld-why and ld-debug, or those of them
# that the words name. `rt try` compiles a program and runs it in a folder that goes away; this script has it wait for an
# input, and copies it meanwhile. Nothing is built where the kept one is of the same sources and the same kit.
# Each takes some two minutes of a processor, and 2.8 GB of memory while it is compiled: they are compiled at once where there
# is memory for all three, and else one after the other.
# usage: sh examples/unproved_programs.sh [ld] [ld-why] [ld-debug]
set -eu

root=$(cd "$(dirname "$0")/.." && pwd)
kept=$root/out/unproved
work=$(mktemp -d)
trap 'rm -rf "$work"' EXIT
trap 'exit 1' HUP INT TERM

if ! command -v rt >/dev/null; then
    echo "rt isn't on PATH, so nothing can be compiled." >&2
    exit 2
fi
sum=$(cd "$root" && { rt version && find crates crates.txt -name '*.rt' -o -name crates.txt | LC_ALL=C sort | xargs cksum; } | cksum)

# crate PROGRAM: prints the name of its crate.
crate() {
    echo "$1" | tr - _
}

# is_kept PROGRAM: whether there is one of these sources.
is_kept() {
    [ -x "$kept/$1" ] && [ "$(cat "$kept/$1.sum" 2>/dev/null)" = "$sum" ]
}

# keep PROGRAM: compiles a program and keeps it. It opens held.o, which waits until it is opened for writing too, and reads
# it until it is closed. A second run of the program finds an empty file.
keep() {
    mkdir "$work/$1"
    cd "$work/$1"
    mkfifo held.o
    (cd "$root/crates/$(crate "$1")" && TMPDIR=$work/$1 rt try -- -o "$work/$1/a.out" "$work/$1/held.o") >said 2>&1 &
    run=$!
    (
        exec 3>held.o
        cp "$(find . -type f -name program | LC_ALL=C sort | tail -n 1)" copy
        rm held.o
        : >held.o
    ) &
    copy=$!
    wait "$run" || true
    kill "$copy" 2>/dev/null || true
    wait "$copy" 2>/dev/null || true
    if ! [ -x copy ] || ! ./copy --check x.o 2>&1 | grep -q 'MissingValue (3)'; then
        cat said >&2
        echo "The unproved program $1 could not be kept." >&2
        return 2
    fi
    mkdir -p "$kept"
    mv copy "$kept/$1"
    echo "$sum" >"$kept/$1.sum"
}

[ $# -gt 0 ] || set -- ld ld-why ld-debug
at_once=$(awk '/^MemAvailable:/ { print ($2 > 9000000 ? "yes" : "no") }' /proc/meminfo 2>/dev/null) || at_once=no
jobs=
for program do
    case $program in
    ld | ld-why | ld-debug) is_kept "$program" && continue ;;
    *)
        echo "usage: sh examples/unproved_programs.sh [ld] [ld-why] [ld-debug]" >&2
        exit 2
        ;;
    esac
    echo "out/unproved/$program is compiled now, which takes about two minutes, and kept. It is NOT proved."
    keep "$program" &
    if [ "$at_once" = yes ]; then
        jobs="$jobs $!"
    else
        wait "$!"
    fi
done
for job in $jobs; do
    wait "$job"
done
