#!/bin/sh
# A first link: makes the object file a.o, links it, prints the link map, checks the image and the map, and
# runs the image. All files stand in a temporary directory, which goes away at the end.
#
# The linker is the proved program crates/ld/out/ld, where it stands. Else it is the unproved one, which `rt try`
# compiles and unproved_programs.sh keeps. `rt ci` at the top of the repository proves everything and leaves the proved
# program; `cd crates/ld && rt run` proves and builds just what the program stands on.
set -eu

root=$(cd "$(dirname "$0")/.." && pwd)
work=$(mktemp -d)
trap 'rm -rf "$work"' EXIT
trap 'exit 1' HUP INT TERM

# number WIDTH VALUE: a number in WIDTH bytes, least significant byte first.
number() {
    width=$1
    value=$2
    while [ "$width" -gt 0 ]; do
        # shellcheck disable=SC2059
        printf "\\$(printf '%03o' "$((value % 256))")"
        value=$((value / 256))
        width=$((width - 1))
    done
}

# section NAME TYPE FLAGS OFFSET SIZE LINK INFO ALIGN ENTSIZE: an entry of the section header table. NAME is
# the place of the name in .shstrtab; sh_addr is 0.
section() {
    number 4 "$1"
    number 4 "$2"
    number 8 "$3"
    number 8 0
    number 8 "$4"
    number 8 "$5"
    number 4 "$6"
    number 4 "$7"
    number 8 "$8"
    number 8 "$9"
}

# The object file, 496 bytes (System V gABI 4; AMD64 psABI 4 for the machine's number).
object() {
    # 0: the file header. Class, order of bytes and version; ET_REL, EM_X86_64, EV_CURRENT; no entry and no
    # program headers; the section header table at 176; no flags; the sizes of this header, of a program
    # header (0, there are none) and of a section header; 5 sections, the names in number 4.
    printf '\177ELF\002\001\001'
    number 9 0
    number 2 1
    number 2 62
    number 4 1
    number 8 0
    number 8 0
    number 8 176
    number 4 0
    number 2 64
    number 2 0
    number 2 0
    number 2 64
    number 2 5
    number 2 4
    # 64: .text. mov eax, 60; xor edi, edi; syscall: the Linux call exit(0).
    printf '\270\074\000\000\000\061\377\017\005'
    number 7 0
    # 80: .symtab. The null symbol; then _start, GLOBAL and FUNC, at 0 of section 1, of 9 bytes.
    number 24 0
    number 4 1
    number 1 18
    number 1 0
    number 2 1
    number 8 0
    number 8 9
    # 128: .strtab.
    printf '\000_start\000'
    # 136: .shstrtab.
    printf '\000.text\000.symtab\000.strtab\000.shstrtab\000'
    number 7 0
    # 176: the section header table. .text is PROGBITS with ALLOC and EXECINSTR.
    section 0 0 0 0 0 0 0 0 0
    section 1 1 6 64 9 0 0 1 0
    section 7 2 0 80 48 3 1 8 24
    section 15 3 0 128 8 0 0 1 0
    section 23 3 0 136 33 0 0 1 0
}

# Runs the linker with the words -o a.out -Map=a.map a.o, and before the last with those of the call.
ld() {
    (cd "$work" && "$linker" -o a.out -Map=a.map "$@" a.o)
}

. "$root/examples/which_linker.sh"

object >"$work/a.o"

echo "\$ ld -o a.out -Map=a.map a.o"
ld

echo "\$ cat a.map"
cat "$work/a.map"

echo "\$ ld -o a.out -Map=a.map --check a.o"
ld --check

echo "\$ ./a.out; echo \$?"
status=0
"$work/a.out" || status=$?
echo "$status"
exit "$status"
