#!/bin/sh
# A static library: compiles the C and C++ sources in static_library/, makes two archives of them with ar, links a
# program with these by -L, -l and a group, prints the objects, the dropped sections, the common blocks and the
# linker's names of the map, checks the image and the map, runs the image, and compares what it prints and its exit
# status with what is expected. It needs gcc, g++, as and ar for x86-64. All files stand in a temporary directory,
# which goes away at the end.
#
# The linker is the proved program crates/ld/out/ld, where it stands. Else it is the unproved one, which `rt try`
# compiles and unproved_programs.sh keeps. `rt ci` at the top of the repository proves everything and leaves the proved
# program; `cd crates/ld && rt run` proves and builds just what the program stands on.

# Lists of words are parted at spaces.
# shellcheck disable=SC2086
set -eu

root=$(cd "$(dirname "$0")/.." && pwd)
sources=$root/examples/static_library
work=$(mktemp -d)
trap 'rm -rf "$work"' EXIT
trap 'exit 1' HUP INT TERM

words="start.o run.o -L. -( -lshapes -ltext -)"

# Code for a fixed address, so without a GOT; C variables without a value are common.
flags="-c -O1 -ffreestanding -fno-pie -fno-stack-protector"

compile() {
    for name in "$@"; do
        gcc $flags -fcommon -o "$work/$name.o" "$sources/$name.c"
    done
}

# Without exceptions, types at run time, and symbols of binding GNU_UNIQUE.
compile_cpp() {
    for name in "$@"; do
        g++ $flags -fno-exceptions -fno-rtti -fno-gnu-unique -o "$work/$name.o" "$sources/$name.cpp"
    done
}

# Runs the linker with the words -o a.out -Map=a.map and those of the line, and before these with those of the call.
ld() {
    (cd "$work" && "$linker" -o a.out -Map=a.map "$@" $words)
}

. "$root/examples/which_linker.sh"

as -o "$work/start.o" "$sources/start.s"
compile print prefix number
compile_cpp run sums areas
(cd "$work" && ar rcs libtext.a print.o prefix.o number.o && ar rcs libshapes.a sums.o areas.o)

echo "\$ ld -o a.out -Map=a.map $words"
ld

echo "\$ grep -e ^object -e ^drop -e ^common -e linker a.map"
grep -e ^object -e ^drop -e ^common -e linker "$work/a.map"

echo "\$ ld -o a.out -Map=a.map --check $words"
ld --check

echo "\$ ./a.out; echo \$?"
status=0
"$work/a.out" >"$work/printed" || status=$?
cat "$work/printed"
echo "$status"

cat >"$work/expected" <<'END'
- rectangle
- square
- shape 0
- square 16
- rectangle 21
- sum - square 1
37
- greatest 21
- parts 115
- square 1
END
cmp "$work/printed" "$work/expected"
if [ "$status" -ne 37 ]; then
    echo "The exit status is not 37." >&2
    exit 1
fi
echo "This is what is expected."
