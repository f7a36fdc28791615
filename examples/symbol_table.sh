#!/bin/sh
# The symbol table of an image: compiles symbol_table/names.c by musl-gcc, links it with musl's start files and libc.a,
# and checks the image and the map. Then it compares the names with those of GNU ld's image of the same objects: each
# name that both have as GLOBAL or WEAK must have the same binding, type and size in both, only their addresses
# differ; and GNU ld's image must have no name of an object that ours lacks but the thread-local one. It compares all
# addresses with those of the map, and those of main and _start with what gdb and readelf tell; sees that readelf,
# objdump, nm and eu-elflint warn of nothing; and links once more with -s. It needs musl-gcc (in Debian: musl-tools);
# where another tool is missing it says so and goes on. All files stand in a temporary directory, which goes away at
# the end.
#
# The linker is the proved program crates/ld/out/ld, where it stands. Else it is the unproved one, which `rt try`
# compiles and unproved_programs.sh keeps.

# Lists of words are parted at spaces.
# shellcheck disable=SC2086
set -eu

root=$(cd "$(dirname "$0")/.." && pwd)
source=$root/examples/symbol_table/names.c
work=$(mktemp -d)
trap 'rm -rf "$work"' EXIT
trap 'exit 1' HUP INT TERM
export LC_ALL=C

if ! command -v musl-gcc >/dev/null; then
    echo "musl-gcc isn't on PATH; there is nothing to link. In Debian it is in the package musl-tools." >&2
    exit 2
fi

. "$root/examples/which_linker.sh"

# The start files and the library are those that musl's own driver hands to GNU ld, which tells them with -t.
musl-gcc -O2 -fno-pie -fcommon -c -o "$work/names.o" "$source"
musl-gcc -static -no-pie -Wl,-t -o "$work/peer" "$work/names.o" >"$work/trace"
library=$(dirname "$(grep -o "/[^ ()]*/libc.a" "$work/trace" | head -n 1)")
for name in crt1.o crti.o crtn.o libc.a; do
    cp "$library/$name" "$work/$name"
done

words="crt1.o crti.o names.o libc.a crtn.o"

# Runs the linker with the words -o a.out -Map=a.map and those of the line, and before these with those of the call.
ld() {
    (cd "$work" && "$linker" -o a.out -Map=a.map "$@" $words)
}

# fails TEXT: says what is not as expected, and ends.
fails() {
    echo "$1" >&2
    exit 1
}

# has TOOL: whether there is a tool; says so where there is none.
has() {
    command -v "$1" >/dev/null && return 0
    echo "$1 isn't on PATH: what it tells is left out."
    return 1
}

# symbols IMAGE: name, binding, type and size of each GLOBAL or WEAK symbol that is defined, in order. nm tells the
# binding, WEAK by V or W, and readelf the type and the size.
symbols() {
    nm "$1" | awk 'NF == 3 && $2 ~ /[A-Z]/ { print $3, ($2 ~ /[VW]/ ? "WEAK" : "GLOBAL") }' | sort >"$work/bindings"
    readelf -sW "$1" | awk '$5 ~ /GLOBAL|WEAK/ && $7 != "UND" { print $8, $4, $3 }' | sort >"$work/types"
    join "$work/bindings" "$work/types"
}

# address NAME: the address that nm tells of a name of the image, as a decimal number.
address() {
    echo "$((0x$(nm "$work/a.out" | awk -v "name=$1" '$3 == name { print $1 }')))"
}

# quiet TOOL WORD..: runs a tool on the image, which must print nothing on standard error.
quiet() {
    has "$1" || return 0
    "$@" "$work/a.out" >"$work/told" 2>"$work/warned" || fails "$* fails."
    [ ! -s "$work/warned" ] || fails "$* warns: $(cat "$work/warned")"
    echo "$* a.out: no warning"
}

echo "\$ ld -o a.out -Map=a.map $words"
ld

echo "\$ tail -n 2 a.map"
tail -n 2 "$work/a.map"

echo "\$ ld -o a.out -Map=a.map --check $words"
ld --check

echo "\$ ./a.out"
"$work/a.out" | tee "$work/printed"
[ "$(cat "$work/printed")" = 77 ] || fails "This is not 77."

(cd "$work" && command ld -static -o peer $words)
if has nm && has readelf; then
    symbols "$work/a.out" >"$work/ours"
    symbols "$work/peer" >"$work/theirs"
    echo "name, binding, type and size of some:"
    grep -e '^_end ' -e '^main ' -e '^scale ' -e '^shared ' -e '^total ' "$work/ours" | tee "$work/some"
    [ "$(wc -l <"$work/some")" -eq 5 ] || fails "One of these five has no entry."
    join "$work/ours" "$work/theirs" >"$work/both"
    awk '$2 != $5 || $3 != $6 || $4 != $7' "$work/both" >"$work/others"
    [ ! -s "$work/others" ] || fails "Not as in GNU ld's image: $(cat "$work/others")"
    echo "$(wc -l <"$work/both") names are in GNU ld's image too, with the same binding, type and size."
    # GNU ld has entries of its own names that nothing uses, too.
    join -v 2 "$work/ours" "$work/theirs" | grep -v -e '^__bss_start ' -e '^_edata ' >"$work/missing" || true
    [ "$(cut -d ' ' -f 1,3 "$work/missing")" = "own TLS" ] || fails "Only in GNU ld's image: $(cat "$work/missing")"
    echo "Of the objects' names only own, which is thread-local, is there and not in ours."
    nm "$work/a.out" | awk '{ print $3, $1 }' | sort >"$work/addresses"
    awk '$1 == "symbol" { print $NF, $2 }' "$work/a.map" | sort | comm -3 "$work/addresses" - >"$work/others"
    [ "$(awk '{ print $1 }' "$work/others")" = own ] || fails "Not as in the map: $(cat "$work/others")"
    echo "The addresses are those of the map's lines; only own has no entry."
    entry=$(($(readelf -hW "$work/a.out" | sed -n 's/.*Entry point address: *//p')))
    [ "$(address _start)" -eq "$entry" ] || fails "_start is at $(address _start), and the entry is $entry."
    printf '_start is at 0x%x, where the image is entered.\n' "$entry"
    if has gdb; then
        main=$(gdb -nx -batch -ex 'info address main' "$work/a.out" | sed -n 's/.* is at \(0x[0-9a-f]*\) .*/\1/p')
        [ "$(address main)" -eq "$((main))" ] || fails "main is at $(address main), and gdb says $main."
        echo "main is at $main, as gdb says too."
    fi
fi

quiet readelf -aW
quiet objdump -d
quiet nm

# eu-elflint expects a section behind the rights of a segment. There is none, and that is all it may find.
if has eu-elflint; then
    eu-elflint "$work/a.out" >"$work/told" 2>"$work/warned" || true
    grep -v 'but contains no .* sections$' "$work/told" >"$work/others" || true
    if [ -s "$work/warned" ] || [ -s "$work/others" ]; then
        fails "eu-elflint warns: $(cat "$work/warned" "$work/others")"
    fi
    echo "eu-elflint a.out: only that no section stands in the segments of code and data"
fi

with=$(wc -c <"$work/a.out")
echo "\$ ld -o a.out -Map=a.map -s $words"
ld -s
if has nm; then
    nm "$work/a.out" 2>&1 | grep -q 'no symbols' || fails "With -s the image has symbols."
fi
echo "The image has $with bytes, and $(wc -c <"$work/a.out") with -s."
