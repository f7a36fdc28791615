#!/bin/sh
# A program on a whole C library: compiles musl_static/words.c by musl-gcc, links it with musl's start files and libc.a
# in the order in which a compiler's driver names them, checks the image and the map, runs the image, and compares what
# it prints, line for line, with what the same program prints that GNU ld has linked. It needs musl-gcc (in Debian:
# musl-tools), and says so where that is missing. All files stand in a temporary directory, which goes away at the end.
#
# The linker is the proved program crates/ld/out/ld, where it stands. Else it is the unproved one, which `rt try`
# compiles and unproved_programs.sh keeps.

# Lists of words are parted at spaces.
# shellcheck disable=SC2086
set -eu

root=$(cd "$(dirname "$0")/.." && pwd)
source=$root/examples/musl_static/words.c
work=$(mktemp -d)
trap 'rm -rf "$work"' EXIT
trap 'exit 1' HUP INT TERM

if ! command -v musl-gcc >/dev/null; then
    echo "musl-gcc isn't on PATH; there is nothing to link. In Debian it is in the package musl-tools." >&2
    exit 2
fi

. "$root/examples/which_linker.sh"

# The start files and the library are those that musl's own driver hands to GNU ld, which tells them with -t.
# -fno-plt has calls go through the global offset table, and so does the model of the thread-local variable.
musl-gcc -O2 -fPIC -fno-plt -ftls-model=initial-exec -c -o "$work/words.o" "$source"
musl-gcc -static -no-pie -Wl,-t -o "$work/peer" "$work/words.o" >"$work/trace"
library=$(dirname "$(grep -o "/[^ ()]*/libc.a" "$work/trace" | head -n 1)")
for name in crt1.o crti.o crtn.o libc.a; do
    cp "$library/$name" "$work/$name"
done

words="crt1.o crti.o words.o libc.a crtn.o"

# Runs the linker with the words -o a.out -Map=a.map and those of the line, and before these with those of the call.
ld() {
    (cd "$work" && "$linker" -o a.out -Map=a.map "$@" $words)
}

echo "\$ ld -o a.out -Map=a.map $words"
ld

echo "\$ grep -c ^object a.map; grep -e '\\.t[bd]' -e ^got -e ^slot a.map"
grep -c ^object "$work/a.map"
grep -e '\.t[bd]' -e ^got -e ^slot "$work/a.map"

echo "\$ ld -o a.out -Map=a.map --check $words"
ld --check

echo "\$ ./a.out pear 12 300 apple 67 99999999999999999999; echo \$?"
status=0
"$work/a.out" pear 12 300 apple 67 99999999999999999999 >"$work/printed" || status=$?
cat "$work/printed"
echo "$status"

peer=0
"$work/peer" pear 12 300 apple 67 99999999999999999999 >"$work/expected" || peer=$?
cmp "$work/printed" "$work/expected"
if [ "$status" -ne "$peer" ]; then
    echo "The exit status is not $peer." >&2
    exit 1
fi
echo "GNU ld's image prints the same."
