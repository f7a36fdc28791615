#!/bin/sh
# The check of another linker's image: lld links a C program with musl's start files and libc.a by a script that
# tools/judge/link.py makes, the image is run, and tools/judge/judge.py has `ld --check` judge it. Then one byte of its code
# is changed, and it is judged again. It needs musl-gcc (in Debian: musl-tools), ld.lld (lld) and python3, and says so where
# one is missing. All files stand in a temporary directory, which goes away at the end.
#
# The linker is the proved program crates/ld/out/ld, where it stands. Else it is the unproved one, which `rt try`
# compiles and unproved_programs.sh keeps.
set -eu

root=$(cd "$(dirname "$0")/.." && pwd)
work=$(mktemp -d)
trap 'rm -rf "$work"' EXIT
trap 'exit 1' HUP INT TERM

for tool in musl-gcc ld.lld python3; do
    if ! command -v "$tool" >/dev/null; then
        echo "$tool isn't on PATH; there is nothing to judge. In Debian musl-gcc is in musl-tools, and ld.lld in lld." >&2
        exit 2
    fi
done

# shellcheck source=examples/which_linker.sh
. "$root/examples/which_linker.sh"
export LD_PROGRAM="$linker"
judge=$root/tools/judge

# The start files and the library are those that musl's own driver hands to GNU ld, which tells them with -t.
musl-gcc -O2 -fno-pie -c -o "$work/main.o" "$root/examples/musl_static/words.c"
musl-gcc -static -no-pie -Wl,-t -o "$work/peer" "$work/main.o" >"$work/trace"
library=$(dirname "$(grep -o "/[^ ()]*/libc.a" "$work/trace" | head -n 1)")
for name in crt1.o crti.o crtn.o libc.a; do
    cp "$library/$name" "$work/$name"
done
cd "$work"
words="crt1.o crti.o main.o libc.a crtn.o"

echo "\$ tools/judge/link.py lld -o a.out -Map=peer.map $words"
# shellcheck disable=SC2086
"$judge/link.py" lld -o a.out -Map=peer.map $words

echo "\$ ./a.out pear 12 300 | tail -n 1"
./a.out pear 12 300 | tail -n 1

echo "\$ tools/judge/judge.py a.out peer.map $words"
# shellcheck disable=SC2086
"$judge/judge.py" a.out peer.map $words

# The file has code from the address of .text on, at that address less 0x400000.
code=$(awk '$5 == ".text" { print $1; exit }' peer.map)
printf '\314' | dd of=a.out bs=1 seek=$((0x$code - 0x400000 + 4)) conv=notrunc 2>/dev/null
echo "The fifth byte of .text is another one now."
echo "\$ tools/judge/judge.py a.out peer.map $words; echo \$?"
status=0
# shellcheck disable=SC2086
"$judge/judge.py" a.out peer.map $words 2>&1 || status=$?
echo "$status"
[ "$status" -eq 1 ]
