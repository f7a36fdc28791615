#!/bin/sh
# Several objects: compiles and assembles the sources in several_objects/, links them, prints the objects and
# symbols of the map, checks the image and the map, runs the image, and compares what it prints and its exit
# status with what is expected. It needs gcc and as for x86-64. All files stand in a temporary directory, which
# goes away at the end.
#
# The linker is the proved program crates/ld/out/ld, where it stands. Else it is the unproved one, which `rt try`
# compiles and unproved_programs.sh keeps. `rt ci` at the top of the repository proves everything and leaves the proved
# program; `cd crates/ld && rt run` proves and builds just what the program stands on.

# Lists of words are parted at spaces.
# shellcheck disable=SC2086
set -eu

root=$(cd "$(dirname "$0")/.." && pwd)
sources=$root/examples/several_objects
work=$(mktemp -d)
trap 'rm -rf "$work"' EXIT
trap 'exit 1' HUP INT TERM

objects="start.o run.o operations.o print.o calls.o"

# Code for any address, without a GOT: its references are of types PC32 and PLT32, those of tables of type 64.
compile() {
    gcc -c -O1 -ffreestanding -fpie -fno-stack-protector -nostdlib -o "$work/$1.o" "$sources/$1.c"
}

assemble() {
    as -o "$work/$1.o" "$sources/$1.s"
}

# Runs the linker with the words -o a.out -Map=a.map and the objects, and before these with those of the call.
ld() {
    (cd "$work" && "$linker" -o a.out -Map=a.map "$@" $objects)
}

. "$root/examples/which_linker.sh"

assemble start
compile run
compile operations
compile print
assemble calls

echo "\$ ld -o a.out -Map=a.map $objects"
ld

echo "\$ grep -e ^object -e ^symbol a.map"
grep -e ^object -e ^symbol "$work/a.map"

echo "\$ ld -o a.out -Map=a.map --check $objects"
ld --check

echo "\$ ./a.out; echo \$?"
status=0
"$work/a.out" >"$work/printed" || status=$?
cat "$work/printed"
echo "$status"

cat >"$work/expected" <<'END'
6 + 7 = 13
6 * 7 = 42
6 gcd 7 = 1
END
cmp "$work/printed" "$work/expected"
if [ "$status" -ne 56 ]; then
    echo "The exit status is not 56." >&2
    exit 1
fi
echo "This is what is expected."
