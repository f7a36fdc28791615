#!/bin/sh
# Debug data in an image for tools: compiles debug/lines.c by musl-gcc -g, links it with musl's start files and libc.a by
# ld-debug, checks the image and the map, runs it, and has gdb stop in a static function and print a backtrace, arguments and
# locals, and addr2line the line of main. GNU strip, objcopy and install -s must leave a program that runs, and say nothing; the
# last object is debug/empty.s, whose sections are empty and aligned. Each must be what is expected here. Then it links with -S,
# which leaves debug data out, and sees that there are none. It needs musl-gcc (in Debian: musl-tools); where gdb is missing it
# says so and goes on. All files stand in a temporary directory, which goes away at the end.
#
# The linker is the proved program crates/ld_debug/out/ld_debug, if it is there, or that which $LD_DEBUG_PROGRAM names. Else it
# is the unproved one, which `rt try` compiles and unproved_programs.sh keeps.

# Lists of words are parted at spaces.
# shellcheck disable=SC2086
set -eu

root=$(cd "$(dirname "$0")/.." && pwd)
work=$(mktemp -d)
trap 'rm -rf "$work"' EXIT
trap 'exit 1' HUP INT TERM
export LC_ALL=C

if ! command -v musl-gcc >/dev/null; then
    echo "musl-gcc isn't on PATH; there is nothing to link. In Debian it is in the package musl-tools." >&2
    exit 2
fi

if [ -n "${LD_DEBUG_PROGRAM-}" ]; then
    linker=$LD_DEBUG_PROGRAM
else
    program=ld-debug
    # shellcheck source=examples/which_linker.sh
    . "$root/examples/which_linker.sh"
fi

# fails TEXT: says what is not as expected, and ends.
fails() {
    echo "$1" >&2
    exit 1
}

# The start files and the library are those that musl's own driver hands to GNU ld, which tells them with -t.
cp "$root/examples/debug/lines.c" "$work/lines.c"
cp "$root/examples/debug/empty.s" "$work/empty.s"
(cd "$work" && musl-gcc -g -gz=none -O0 -fno-pie -c lines.c && musl-gcc -c empty.s)
musl-gcc -static -no-pie -Wl,-t -o "$work/peer" "$work/lines.o" >"$work/trace"
library=$(dirname "$(grep -o "/[^ ()]*/libc.a" "$work/trace" | head -n 1)")
for name in crt1.o crti.o crtn.o libc.a; do
    cp "$library/$name" "$work/$name"
done
words="crt1.o crti.o lines.o libc.a crtn.o empty.o"
cd "$work"

echo "\$ ld-debug -o a.out -Map=a.map $words"
"$linker" -o a.out -Map=a.map $words
echo "\$ ld-debug -o a.out -Map=a.map --check $words"
"$linker" -o a.out -Map=a.map --check $words
echo "\$ ./a.out"
./a.out
[ "$(./a.out)" = 89 ] || fails "It prints another number than 89."

echo "\$ addr2line -f -e a.out main"
main=$(nm a.out | awk '$3 == "main" { print $1 }')
addr2line -f -e a.out "0x$main" | sed "s|$work/||" | tee line
[ "$(cat line)" = "main
lines.c:25" ] || fails "The line of main is another one."

# stripped WORDS..: runs a command that makes ./stripped, which must say nothing, and the program, which must be the same.
stripped() {
    echo "\$ $*"
    rm -f stripped
    "$@" >said 2>&1 || fails "It failed."
    [ ! -s said ] || fails "It says: $(cat said)"
    [ "$(./stripped)" = 89 ] || fails "What it leaves prints another number than 89."
}

stripped strip -o stripped a.out
stripped objcopy --strip-debug a.out stripped
stripped install -s a.out stripped

if command -v gdb >/dev/null; then
    echo "\$ gdb -batch -ex 'break lines.c:13' -ex run -ex backtrace -ex 'info args' -ex 'info locals' a.out"
    gdb -nx -batch -ex 'set print address off' -ex 'break lines.c:13' -ex run -ex backtrace -ex 'info args' -ex 'info locals' a.out 2>/dev/null |
        grep -E '^(#|more|sum)' >told
    cat told
    for line in '^#0 *total (.*more=3) at lines.c:13$' '^#1 *listed (key=41) at lines.c:21$' '^#2 *main (argc=1, .*) at lines.c:27$' \
        '^more = 3$' '^sum = 0$'; do
        grep -q "$line" told || fails "No line is as $line."
    done
else
    echo "gdb isn't on PATH: what it tells is left out."
fi

echo "\$ ld-debug -S -o a.out $words"
"$linker" -S -o a.out $words
! readelf -SW a.out | grep -q '\.debug_' || fails "There are debug data with -S."
