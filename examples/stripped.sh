#!/bin/sh
# Images for tools whose sections end with empty, aligned pieces, as compilers write them: after the object stripped/first.s
# comes one with such a piece of one kind, and at last one with all kinds. Each image is linked by ld-debug and checked; it is run,
# and run again once GNU strip, objcopy --strip-debug and install -s went over it, which must say nothing. Where a section reaches
# past its segment they move what comes after it, and the program dies. It needs as and binutils. All files are in a temporary
# directory, which goes away at the end.
#
# The linker is the proved program crates/ld_debug/out/ld_debug, if it is there, or that which $LD_DEBUG_PROGRAM names. Else it
# is the unproved one, which `rt try` compiles and unproved_programs.sh keeps.
set -eu

root=$(cd "$(dirname "$0")/.." && pwd)
work=$(mktemp -d)
trap 'rm -rf "$work"' EXIT
trap 'exit 1' HUP INT TERM
export LC_ALL=C

for tool in as strip objcopy install; do
    if ! command -v "$tool" >/dev/null; then
        echo "$tool isn't on PATH. In Debian it is in the package binutils or coreutils." >&2
        exit 2
    fi
done

if [ -n "${LD_DEBUG_PROGRAM-}" ]; then
    linker=$LD_DEBUG_PROGRAM
else
    program=ld-debug
    # shellcheck source=examples/which_linker.sh
    . "$root/examples/which_linker.sh"
fi

# fails TEXT: says what is not as expected, and ends.
fails() {
    echo "$1" >&2
    exit 1
}

# runs PROGRAM: it must exit with 0.
runs() {
    "./$1" || fails "$1 exits with $?."
}

# silent WORD..: runs a command, which must say nothing.
silent() {
    rm -f stripped
    "$@" >said 2>&1 || fails "$* fails: $(cat said)"
    [ ! -s said ] || fails "$* says: $(cat said)"
}

# A section of each kind without bytes, of names that the first object has and of others, and a common block.
cat >"$work/kinds" <<'KINDS'
.text
.data
.bss
.section .rodata, "a"
.section .tdata, "awT"
.section .tbss, "awT", @nobits
.section .init_array, "aw", @init_array
.section .note.none, "a", @note
.section .no_code, "ax"
.section .no_data, "aw"
.section .no_zeros, "aw", @nobits
.section .no_reads, "a"
.section .no_thread, "awT"
.section .no_thread_zeros, "awT", @nobits
.comm no_block, 0
KINDS

# object NAME ALIGNMENT: the kinds on standard input, each aligned, as an object.
object() {
    while IFS= read -r kind; do
        case $kind in
        .comm*) echo "$kind, $2" ;;
        *) printf '%s\n.balign %s\n' "$kind" "$2" ;;
        esac
    done >"$1.s"
    echo '.section .note.GNU-stack, ""' >>"$1.s"
    as -o "$1.o" "$1.s"
}

# tries FIRST LAST: links two objects, and runs the image and what the tools leave of it.
tries() {
    "$linker" -o a.out -Map=a.map "$1" "$2" || fails "They aren't linked."
    [ "$("$linker" -o a.out -Map=a.map --check "$1" "$2")" = yes ] || fails "The check doesn't say yes."
    runs a.out
    for words in "strip -o stripped a.out" "objcopy --strip-debug a.out stripped" "install -s a.out stripped"; do
        # shellcheck disable=SC2086
        silent $words
        runs stripped
    done
}

# tries_all NAME TEXT: the kinds of a file of this name in an object, behind each first one, at a small and at a large alignment.
tries_all() {
    for align in 16 4096; do
        object empty "$align" <"$1"
        for first in first.o bare.o; do
            echo "$2, aligned to $align, behind $first"
            tries "$first" empty.o
        done
    done
}

cd "$work"
as -g -o first.o "$root/examples/stripped/first.s"
as -g --defsym BARE=1 -o bare.o "$root/examples/stripped/first.s"
while IFS= read -r kind; do
    echo "$kind" >one
    tries_all one "$kind"
done <kinds
tries_all kinds "all of them"
echo "Each image runs, also after strip, objcopy --strip-debug and install -s."
