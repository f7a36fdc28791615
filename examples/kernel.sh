#!/bin/sh
# A kernel: links the multiboot kernel in kernel/ at 1 MiB, checks the image and the map, sees that the header is where a boot
# loader looks for it, and boots it in QEMU, where it goes into long mode and prints. What it prints is compared with what is
# expected. It needs gcc and as for x86-64; if qemu-system-x86_64 is missing it says so and doesn't boot. All files are in a
# temporary directory, which goes away at the end.
#
# The linker is the proved program crates/ld/out/ld, if it is there. Else it is the unproved one, which `rt try`
# compiles and unproved_programs.sh keeps.

# Lists of words are parted at spaces.
# shellcheck disable=SC2086
set -eu

root=$(cd "$(dirname "$0")/.." && pwd)
sources=$root/examples/kernel
work=$(mktemp -d)
trap 'rm -rf "$work"' EXIT
trap 'exit 1' HUP INT TERM

# shellcheck source=examples/which_linker.sh
. "$root/examples/which_linker.sh"

# The order of the words is that of the sections: the object with the header comes first.
words="-s -Ttext-segment=0x100000 boot.o kernel.o"

as -o "$work/boot.o" "$sources/boot.s"
gcc -c -O1 -ffreestanding -fno-pie -fno-stack-protector -fno-asynchronous-unwind-tables -mno-red-zone -mgeneral-regs-only \
    -o "$work/kernel.o" "$sources/kernel.c"
cd "$work"

echo "\$ ld -o kernel -Map=kernel.map $words"
"$linker" -o kernel -Map=kernel.map $words
echo "\$ ld -o kernel -Map=kernel.map --check $words"
"$linker" -o kernel -Map=kernel.map --check $words

echo "\$ grep multiboot kernel.map"
grep multiboot kernel.map
header=$(awk '$1 == "place" && $6 == ".multiboot" { print $2 }' kernel.map)
offset=$((0x$header - 0x100000))
echo "The header is at byte $offset of the file; a boot loader looks for it in the first 8192."
[ "$offset" -lt 8160 ]

if ! command -v qemu-system-x86_64 >/dev/null; then
    echo "qemu-system-x86_64 isn't on PATH, so nothing is booted. In Debian it is in the package qemu-system-x86."
    exit 0
fi
echo "\$ qemu-system-x86_64 -kernel kernel -display none -serial file:printed .."
status=0
timeout 120 qemu-system-x86_64 -kernel kernel -display none -serial file:printed -monitor none -no-reboot \
    -device isa-debug-exit,iobase=0xf4,iosize=1 </dev/null || status=$?
cat printed
cat >expected <<'END'
long mode: 1
read-only data and pointers
sum: 115
zeros: 0
loaded at: 1048576
in order: 1
END
cmp printed expected
if [ "$status" -ne 33 ]; then
    echo "The exit status is $status, and not 33." >&2
    exit 1
fi
echo "This is what is expected."
