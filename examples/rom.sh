#!/bin/sh
# A flash ROM: links the firmware in rom/ so that it ends at 4 GiB, where a processor begins, checks the image and the map,
# sees that the image file is as large as the ROM, and boots it in QEMU as it is. What it prints is compared with what is
# expected. It needs as for x86-64; if qemu-system-x86_64 is missing it says so and doesn't boot. All files are in a temporary
# directory, which goes away at the end.
#
# The linker is the proved program crates/ld/out/ld, if it is there. Else it is the unproved one, which `rt try`
# compiles and unproved_programs.sh keeps.

# Lists of words are parted at spaces.
# shellcheck disable=SC2086
set -eu

root=$(cd "$(dirname "$0")/.." && pwd)
work=$(mktemp -d)
trap 'rm -rf "$work"' EXIT
trap 'exit 1' HUP INT TERM

# shellcheck source=examples/which_linker.sh
. "$root/examples/which_linker.sh"

# With -s the file ends with what is in memory. A byte of it is at its address less the base.
words="-s -Ttext-segment=0xffff0000 rom.o"

as -o "$work/rom.o" "$root/examples/rom/rom.s"
cd "$work"

echo "\$ ld -o rom -Map=rom.map $words"
"$linker" -o rom -Map=rom.map $words
echo "\$ ld -o rom -Map=rom.map --check $words"
"$linker" -o rom -Map=rom.map --check $words

echo "\$ wc -c <rom"
wc -c <rom
[ "$(wc -c <rom)" -eq 65536 ]
echo "\$ grep -e ' \\.text' -e _start rom.map"
grep -e ' \.text' -e _start rom.map
[ "$(awk '$1 == "symbol" && $NF == "_start" { print $2 }' rom.map)" = 00000000fffffff0 ]

if ! command -v qemu-system-x86_64 >/dev/null; then
    echo "qemu-system-x86_64 isn't on PATH, so nothing is booted. In Debian it is in the package qemu-system-x86."
    exit 0
fi
echo "\$ qemu-system-x86_64 -bios rom -display none -serial file:printed .."
status=0
timeout 120 qemu-system-x86_64 -bios rom -display none -serial file:printed -monitor none -no-reboot \
    -device isa-debug-exit,iobase=0xf4,iosize=1 </dev/null || status=$?
cat printed
echo "protected mode, from the ROM" >expected
cmp printed expected
if [ "$status" -ne 33 ]; then
    echo "The exit status is $status, and not 33." >&2
    exit 1
fi
echo "This is what is expected."
