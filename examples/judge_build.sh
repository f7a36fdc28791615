#!/bin/sh
# The judge of other linkers' links: a freestanding program of C is built by its own makefile, with the linkers that are there,
# through tools/judge/bin, which has ld-judge judge each link. Then one byte of code is changed, and the image is judged again. It
# needs gcc, make and python3, and says so where one is missing. All files stand in a temporary directory, which goes away at the
# end.
#
# The programs are the proved ones, crates/ld/out/ld and crates/ld_judge/out/ld_judge, where they stand; LD_PROGRAM and LD_JUDGE
# name others.
set -eu

root=$(cd "$(dirname "$0")/.." && pwd)
work=$(mktemp -d)
trap 'rm -rf "$work"' EXIT
trap 'exit 1' HUP INT TERM

for tool in gcc make python3; do
    if ! command -v "$tool" >/dev/null; then
        echo "$tool isn't on PATH; there is nothing to judge." >&2
        exit 2
    fi
done
LD_PROGRAM=${LD_PROGRAM:-$root/crates/ld/out/ld}
LD_JUDGE=${LD_JUDGE:-$root/crates/ld_judge/out/ld_judge}
export LD_PROGRAM LD_JUDGE
for program in "$LD_PROGRAM" "$LD_JUDGE"; do
    if [ ! -x "$program" ]; then
        echo "There is no program at $program. To get the proved ones: rt run in crates/ld and in crates/ld_judge." >&2
        exit 2
    fi
done

# A makefile splits CC at spaces, and the path of this repository may have some.
ln -s "$root/tools/judge/bin" "$work/bin"
mkdir "$work/package"
cd "$work/package"
cat >main.c <<'END'
int sum(const int *numbers, int count);
static int numbers[] = {1, 2, 3, 4};

void _start(void) {
    int status = sum(numbers, 4) == 10 ? 0 : 1;
    __asm__ volatile("syscall" : : "a"(60), "D"(status));
}
END
cat >sum.c <<'END'
static int last;

int sum(const int *numbers, int count) {
    last = 0;
    for (int i = 0; i < count; i++) last += numbers[i];
    return last;
}
END
cat >Makefile <<'END'
CFLAGS = -O1 -ffreestanding -fno-pie -fno-stack-protector -fcf-protection=none
program: main.o sum.o
	$(CC) -static -nostdlib -no-pie -o $@ main.o sum.o
clean:
	rm -f program
END

for linker in bfd gold lld; do
    command -v "ld.$linker" >/dev/null || continue
    echo "\$ make CC=\"gcc -B\$PWD/tools/judge/bin/ -fuse-ld=$linker\""
    JUDGE_KEEP="$work/kept" make -s clean program CC="gcc -B$work/bin/ -fuse-ld=$linker" 2>&1 | grep judged
    ./program
done

# The code of `sum` begins at its address less that of its segment, which the symbol table and the headers tell.
address=$(nm program | awk '$3 == "sum" { print $1 }')
offset=$(readelf -lW program | awk -v at="$address" '
    function number(text,  i, n) { n = 0; for (i = 1; i <= length(text); i++) n = n * 16 + index("0123456789abcdef", substr(text, i, 1)) - 1; return n }
    $1 == "LOAD" { start = number(substr($3, 3)); size = number(substr($5, 3)); value = number(at)
        if (start <= value && value < start + size) print number(substr($2, 3)) + value - start }')
echo "The first byte of \`sum\` is another one now."
printf '\314' | dd of=program bs=1 seek="$offset" conv=notrunc 2>/dev/null
echo "\$ ld-judge --certificate=FILE -static -o program main.o sum.o; echo \$?"
status=0
"$LD_JUDGE" --certificate="$work/kept/certificate" -static -o program main.o sum.o || status=$?
echo "$status"
[ "$status" -eq 1 ]
