#!/usr/bin/env bash
# Refuses each growth of memory of the linker, one a run: the Nth call of malloc, calloc or realloc, for N = 1, 2, ..
# until a run needs fewer. Each run with a refused one must print the line `ld: Memory (1)` and nothing else, with exit
# status 4; the last gives the answer of the link. It says how many were refused, and each wrong answer.
#
# The linker is the program LD, else the proved crates/ld/out/ld; it must be linked dynamically with glibc, as the kit
# links it. Inputs are made with as and ar, the library that refuses with gcc.
# usage: [LD=PATH] tools/growths_of_ld.sh; the exit status is 1 where an answer is wrong.
set -euo pipefail

root=$(cd "$(dirname "${BASH_SOURCE[0]}")/.." && pwd)
linker=$(realpath -m "${LD:-$root/crates/ld/out/ld}")
if [ ! -x "$linker" ]; then
    echo "No linker stands at $linker. To get the proved one: rt ci; or, just for the program: cd crates/ld && rt run" >&2
    exit 2
fi
work=$(mktemp -d)
trap 'rm -rf "$work"' EXIT
trap 'exit 1' HUP INT TERM
cd "$work"
gcc -O1 -shared -fPIC -o refuse.so "$root/tools/refuse_growth.c"

# Slots and thread storage, a common block, a group that two objects have, arrays, members of an archive that call one
# another, and a name that none defines.
cat >start.s <<'END'
    .globl _start
_start: mov value@GOTPCREL(%rip), %rax
    mov thread@GOTTPOFF(%rip), %rcx
    lea block(%rip), %rdx
    call first
    mov $60, %eax
    xor %edi, %edi
    syscall
    .comm block, 64, 16
    .data
    .globl value
value: .quad _start, __init_array_start, _end
    .section .tbss, "awT", @nobits
    .globl thread
thread: .zero 8
END
cat >shared.s <<'END'
    .section .text.shared, "axG", @progbits, shared, comdat
    .weak shared
shared: ret
    .section .init_array.5, "aw"
    .quad shared
END
cat >first.s <<'END'
    .globl first
first: call shared
    jmp second
END
cat >second.s <<'END'
    .globl second
second: ret
END
cat >lost.s <<'END'
    .globl _start
_start: call nowhere
END
for source in *.s; do
    as -o "${source%.s}.o" "$source"
done
cp shared.o again.o
mkdir libs
ar rcs libs/libparts.a second.o first.o
failed=0
memory=$'|ld: Memory (1)\n|4'

# run NUMBER WORDS: runs the linker with one growth refused. `answer` is what is on standard output, on standard error,
# and the status, `mark` a file with a byte where the run came to that growth. Standard input is a pipe with start.o.
run() {
    local number=$1 status=0
    shift
    REFUSE_GROWTH=$number LD_PRELOAD=$work/refuse.so "$linker" "$@" < <(cat start.o) >out 2>err 3>mark || status=$?
    answer=$(cat out && printf '|' && cat err && printf '|%s' "$status")
}

# refuse NAME ANSWER WORDS: refuses each growth of a run that gives the answer where none is refused.
refuse() {
    local name=$1 wanted=$2 number=1 wrong=0
    shift 2
    run "$number" "$@"
    while [ -s mark ]; do
        if [ "$answer" != "$memory" ]; then
            echo "$name: growth $number is refused, and the answer is '$answer'"
            wrong=$((wrong + 1))
        fi
        number=$((number + 1))
        run "$number" "$@"
    done
    if [ "$answer" != "$wanted" ]; then
        echo "$name: no growth is refused, and the answer is '$answer'"
        wrong=$((wrong + 1))
    fi
    echo "$name: $((number - 1)) growths refused, $wrong wrong answers"
    [ "$wrong" -eq 0 ] || failed=1
}

objects=(start.o shared.o again.o -Llibs -lparts)
refuse "a link" "||0" -o image "${objects[@]}"
refuse "a link with a map" "||0" -o image -Map=image.map "${objects[@]}"
refuse "a check" $'yes\n||0' -o image -Map=image.map --check "${objects[@]}"
refuse "a link of a pipe" "||0" -o piped -Map=piped.map /dev/stdin shared.o -Llibs -lparts
refuse "a check of another image" $'no C2\n||1' -o piped -Map=piped.map --check "${objects[@]}"
refuse "a refused link" $'|ld: Undefined (10): nowhere\n|1' -o lost lost.o
refuse "refused words" $'|ld: Command (2): MissingValue (3)\n|2' start.o -o
refuse "a missing file" $'|ld: FileMissing (3)\n|3' start.o none.o
exit "$failed"
