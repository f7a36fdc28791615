#!/bin/sh
# Explanations: links an object that calls a function which nobody defines, and has ld-why say where; links it with a function
# of that name, changes one byte of the image, and has ld-why say where the check fails. What it prints is compared with
# what is expected here. It needs as for x86-64. All files are in a temporary directory, which goes away at the end.
#
# The programs are the proved ones, crates/ld/out/ld and crates/ld_why/out/ld_why, if they are there. Else they are the
# unproved ones, which `rt try` compiles and unproved_programs.sh keeps.
set -eu

root=$(cd "$(dirname "$0")/.." && pwd)
work=$(mktemp -d)
trap 'rm -rf "$work"' EXIT
trap 'exit 1' HUP INT TERM

program=ld-why
# shellcheck source=examples/which_linker.sh
. "$root/examples/which_linker.sh"
why=$linker
program=ld
# shellcheck source=examples/which_linker.sh
. "$root/examples/which_linker.sh"

# runs WANTED PROGRAM WORD..: prints a command, what it prints, also to the file `said`, and its status, which must be WANTED.
runs() {
    wanted=$1
    name=$2
    shift 2
    echo "\$ $name${*:+ $*}; echo \$?"
    case $name in
    ld) set -- "$linker" "$@" ;;
    ld-why) set -- "$why" "$@" ;;
    *) set -- "$name" ;;
    esac
    status=0
    "$@" >said 2>&1 || status=$?
    cat said
    echo "$status"
    [ "$status" -eq "$wanted" ] && return 0
    echo "The status is not $wanted." >&2
    exit 1
}

# has TEXT: whether the last program printed a line that begins so.
has() {
    grep -q "^$1" said && return 0
    echo "No line begins with: $1" >&2
    exit 1
}

cd "$work"
as -o b.o - <<'END'
.globl _start
.type _start, @function
_start:
    call f
    mov %eax, %edi
    mov $60, %eax
    syscall
.size _start, . - _start
END
as -o f.o - <<'END'
.globl f
.type f, @function
f:
    mov $7, %eax
    ret
.size f, . - f
END

runs 1 ld -o b b.o
has 'ld: Undefined (10): f$'
runs 1 ld-why -o b b.o
has 'b\.o: \.text+0x1 in _start: f is not defined'
runs 0 ld -o b -Map=b.map b.o f.o
runs 0 ld -o b -Map=b.map --check b.o f.o
runs 7 ./b

# The file has code from 4096 on: the first instruction, and from its second byte on how far f is from there.
printf '\001' | dd of=b bs=1 seek=4097 conv=notrunc 2>/dev/null
echo "One byte of the image is another one now."
runs 1 ld -o b -Map=b.map --check b.o f.o
has 'no C10$'
runs 1 ld-why -o b -Map=b.map --check b.o f.o
has 'b\.o: section 1 \.text: byte 0x1 at 0x401001 is 0x01, and should be 0x09'
