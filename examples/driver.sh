#!/bin/sh
# The linker behind a compiler: builds the package in driver/ by its own makefile with tools/driver/cc-static, by which
# musl-gcc finds tools/driver/ld as its linker, with a check of the link; runs the program, and compares what it prints with what the same build by GNU ld
# prints. Then it shows what a word that would change the program is answered. It needs musl-gcc (in Debian: musl-tools),
# make and ar, and says so where one is missing. All files stand in a temporary directory, which goes away at the end.
#
# The linker is the proved program crates/ld/out/ld, where it stands. Else it is the unproved one, which `rt try`
# compiles and unproved_programs.sh keeps.
set -eu

root=$(cd "$(dirname "$0")/.." && pwd)
work=$(mktemp -d)
trap 'rm -rf "$work"' EXIT
trap 'exit 1' HUP INT TERM

for tool in musl-gcc make ar; do
    if ! command -v "$tool" >/dev/null; then
        echo "$tool isn't on PATH; there is nothing to link. In Debian musl-gcc is in the package musl-tools." >&2
        exit 2
    fi
done

# shellcheck source=examples/which_linker.sh
. "$root/examples/which_linker.sh"
export LD_PROGRAM="$linker" LD_CHECK=say

# A makefile splits CC at spaces, and the path of this repository may have some.
ln -s "$root/tools/driver" "$work/tools"
cp -r "$root/examples/driver" "$work/ours"
cp -r "$root/examples/driver" "$work/peer"

echo "\$ LD_CHECK=say make CC=\"\$PWD/tools/driver/cc-static\""
make -C "$work/ours" -s CC="$work/tools/cc-static"

echo "\$ ./sorted pear fig apple; echo \$?"
status=0
"$work/ours/sorted" pear fig apple >"$work/printed" || status=$?
cat "$work/printed"
echo "$status"

make -C "$work/peer" -s CC=musl-gcc LDFLAGS=-static
"$work/peer/sorted" pear fig apple >"$work/expected"
cmp "$work/printed" "$work/expected"
if [ "$status" -ne 0 ]; then
    echo "The exit status is not 0." >&2
    exit 1
fi
echo "The program that GNU ld links prints the same."

echo "\$ \"\$PWD/tools/driver/cc-static\" -Wl,--wrap=puts main.o"
if (cd "$work/ours" && "$work/tools/cc-static" -Wl,--wrap=puts main.o) 2>"$work/told"; then
    echo "This word is refused otherwise." >&2
    exit 1
fi
grep '^ld:' "$work/told"
