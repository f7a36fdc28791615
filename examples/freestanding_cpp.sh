#!/bin/sh
# Static constructors with priorities: compiles the C++ sources in freestanding_cpp/, links them with a start that walks
# the array of functions from __init_array_start to __init_array_end, prints the arrays of the map, checks the image and
# the map, runs the image, and compares what it prints with what is expected and with what GNU ld's image prints. It
# needs g++, as and GNU ld for x86-64. All files stand in a temporary directory, which goes away at the end.
#
# The linker is the proved program crates/ld/out/ld, where it stands. Else it is the unproved one, which `rt try`
# compiles and unproved_programs.sh keeps.

# Lists of words are parted at spaces.
# shellcheck disable=SC2086
set -eu

root=$(cd "$(dirname "$0")/.." && pwd)
sources=$root/examples/freestanding_cpp
work=$(mktemp -d)
trap 'rm -rf "$work"' EXIT
trap 'exit 1' HUP INT TERM

words="start.o late.o early.o part.o"

# Code for a fixed address, without exceptions, types at run time, destructors, and symbols of binding GNU_UNIQUE.
flags="-c -O1 -ffreestanding -fno-pie -fno-stack-protector -fno-exceptions -fno-rtti -fno-gnu-unique"

# Runs the linker with the words -o a.out -Map=a.map and those of the line, and before these with those of the call.
ld() {
    (cd "$work" && "$linker" -o a.out -Map=a.map "$@" $words)
}

. "$root/examples/which_linker.sh"

as -o "$work/start.o" "$sources/start.s"
for name in late early part; do
    g++ $flags -o "$work/$name.o" "$sources/$name.cpp"
done

echo "\$ ld -o a.out -Map=a.map $words"
ld

echo "\$ grep init_array a.map | sort -k 2"
grep init_array "$work/a.map" | sort -k 2

echo "\$ ld -o a.out -Map=a.map --check $words"
ld --check

echo "\$ ./a.out; echo \$?"
status=0
"$work/a.out" >"$work/printed" || status=$?
cat "$work/printed"
echo "$status"

cat >"$work/expected" <<'END'
1 priority 200
2 priority 5000
3 priority 60000
4 plain, of the first object
5 plain, of the second object
END
cmp "$work/printed" "$work/expected"

(cd "$work" && command ld -static -o peer $words)
"$work/peer" >"$work/peer_printed"
cmp "$work/printed" "$work/peer_printed"
if [ "$status" -ne 0 ]; then
    echo "The exit status is $status, and not 0." >&2
    exit 1
fi
echo "GNU ld's image prints the same."
