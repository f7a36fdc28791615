#!/bin/sh
# Tests which words tools/driver/ld hands on: a script that prints its words stands for the linker, so nothing is linked.
# usage: sh tools/driver/test.sh; it prints what differs, and the number of cases. The exit status is 1 where one differs.
set -eu

driver=$(cd "$(dirname "$0")" && pwd)/ld
work=$(mktemp -d)
trap 'rm -rf "$work"' EXIT
trap 'exit 1' HUP INT TERM
cases=0
failed=0

cat >"$work/print" <<'END'
#!/bin/sh
[ $# -eq 0 ] || printf '[%s]' "$@"
END
chmod +x "$work/print"
cd "$work"
# It takes odd files as `ld` does: refuses the link, if only the first time.
cat >"$work/odd" <<'END'
#!/bin/sh
if [ ! -e refused ]; then
    : >refused
    echo 'ld: BadObject (4): NotElf64 (3)' >&2
    exit 1
fi
rm refused
printf '[%s]' "$@"
END
chmod +x "$work/odd"
export LD_PROGRAM="$work/print" LD_WHY=
unset LD_CHECK LD_WORDS LD_OTHER LD_UNPROVED

# compare WANTED TOLD: counts a case.
compare() {
    cases=$((cases + 1))
    [ "$1" != "$2" ] || return 0
    failed=1
    printf 'wanted: %s\ntold:   %s\n' "$1" "$2"
}

# gives WANTED WORD..: the words that are handed on for these, each in brackets.
gives() {
    wanted=$1
    shift
    compare "$wanted" "$("$driver" "$@" 2>&1)"
}

# retries WANTED WORD..: the words that are handed on where the link was refused with the first ones.
retries() {
    wanted=$1
    shift
    rm -f refused
    compare "$wanted" "$(LD_PROGRAM="$work/odd" "$driver" "$@" 2>&1)"
}

# told VARIABLE=VALUE.. WORD..: what the driver prints and its status, with these settings.
told() {
    status=0
    line=$(env "$@" 2>&1) || status=$?
    echo "$line, $status"
}

# refuses TEXT WORD..: the line of a refusal, after "ld: ", and status 2.
refuses() {
    wanted="ld: $1, 2"
    shift
    compare "$wanted" "$(told "$driver" "$@")"
}

mkdir "d ir" lib
printf 'SECTIONS { .data : { *(.data) } }\n' >lays
printf '/* made by fpc */ SEARCH_DIR("/u nits/rtl/")\nINPUT(\n/u/prt0.o\np%s.o\n)\nINPUT( -lc )\nGROUP ( x.a -lgcc )\nENTRY(_start)\n' "'" >link.res
cat >>link.res <<'END'
SECTIONS
{
  .fpcdata           :
  {
    KEEP (*(.fpc .fpc.n_version .fpc.n_links))
  }
  .threadvar : { *(.threadvar .threadvar.* .gnu.linkonce.tv.*) }
}
INSERT AFTER .data;
END
printf 'SECTIONS { .data : { a = .; } } INSERT AFTER .data;\n' >names
printf '\177ELF' >"d ir/q'r.o"
printf '!<arch>\nmember' >"d ir/x y.a"
cp "d ir/x y.a" "d ir/libx y.a"
cp "d ir/x y.a" core.rlib
printf '!<arch>\n' >empty.o
printf '%s' '-o "a b" '"'c d.o'"' e\ f.o "g'"'"'h.o" @inner' >words
printf '%s\n' '--entry=main' '""' >inner

gives '[-o][a.out][a.o]' -o a.out a.o
gives '[-o][a b][a.o]' '-oa b' a.o
gives '[-o][x][-e][f][-u][g][-Ld][-lm][a.o]' --output=x --entry=f --undefined g -library-path=d --library=m a.o
gives '[a.o][-Map=m n]' -Map 'm n' a.o
gives '[a.o][-Map=m]' a.o --Map=m
gives '[-s][a.o]' -melf_x86_64 -m elf_x86_64 -static -nostdlib --strip-all a.o
gives '[-Ttext-segment=0x10000][-Ttext-segment=0x400000][a.o]' --image-base=0X10000 -Ttext-segment 400000 a.o
gives "[a.o][d ir/q'r.o][-Llib][-Ld ir]" a.o "-l:q'r.o" -Llib -L "d ir"
gives '[d ir/x y.a][-Ld ir]' '-l:x y.a' '-Ld ir'
gives "[-o][a b][c d.o][e f.o][g'h.o][-e][main][]" @words
gives '[@none][a.o]' @none a.o
gives '[a.o][--start-group][-lx][y.a][--end-group][b.o]' --start-group a.o -lx y.a --end-group b.o
gives '[x.a][b.o][y.a][--start-group][x.a][y.a][--end-group]' '-(' x.a b.o y.a '-)'
gives '[a.o]' '-(' '-)' a.o
gives '[--whole-archive][x.a][--no-whole-archive][y.a]' --push-state --whole-archive x.a --pop-state y.a
gives '[a.o]' -plugin p -plugin-opt=q --build-id --hash-style=gnu --as-needed --eh-frame-hdr -z now -zrelro --gc-sections a.o
gives '[a.o]' -O1 --sort-section name --fatal-warnings --warn-common -x -rpath /d --no-relax a.o
gives '[a.o]' -dynamic-linker /lib/l.so a.o -static
gives '[a.o]' --cref -y f -yf --trace-symbol=f --print-memory-usage --no-color-diagnostics --separate-code a.o
gives "[-L/u nits/rtl/][/u/prt0.o][p'.o][-lc][--start-group][x.a][-lgcc][--end-group][-e][_start][b.o]" -T link.res b.o
gives '[a.o]' -b elf64-x86-64 --oformat=elf64-x86-64 a.o
echo '{ global: f; };' >'l ist'
gives '[a.o]' --version-script='l ist' --dynamic-list 'l ist' --retain-symbols-file='l ist' --dynamic-list-data a.o
refuses '-b binary: all files are ELF-64 for x86-64' -b binary a.o

printf 'INPUT(-o -e m.o -lx)GROUP(-s y.a)ENTRY(-s)\n' >dashes
gives '[./-o][./-e][m.o][-lx][./-s][--start-group][y.a][--end-group][-e][-s]' -T dashes

# What this script reads is not written, by whichever name.
spares() {
    wanted="ld: cannot write $1: it is $2, which this link reads or writes, 3"
    shift 2
    compare "$wanted" "$(told "$driver" "$@")"
}
mkdir again
ln words again/words
spares words words @words -o words
spares again/words words @words -o again/words
spares link.res link.res -T link.res -o link.res
spares 'l ist' 'l ist' -Map='l ist' --version-script='l ist' a.o
spares a.o a.o --dependency-file=a.o a.o
spares again/../empty.o empty.o --dependency-file=again/../empty.o a.o empty.o
spares 'd ir/libx y.a' 'd ir/libx y.a' --dependency-file 'd ir/libx y.a' a.o '-lx y' -L 'd ir'
spares i i -o i --dependency-file=i a.o
spares m m -Map=m --dependency-file=m a.o
spares ./m m -o m -Map=./m a.o
spares m lib/../m -o lib/../m -Map=m a.o --dependency-file=lib/../m
gives '[-o][/dev/null][a.o][-Map=/dev/null]' -o /dev/null -Map=/dev/null a.o

# Odd archives.
retries '[a.o]' a.o empty.o
printf '!<thin>\n' >none.a
retries '[a.o][y.a]' a.o none.a y.a
retries 'ld: BadObject (4): NotElf64 (3)' a.o y.a
printf 'INPUT(a.o empty.o b.o c.o)GROUP(x.a none.a y.a)' >input
retries '[a.o][b.o][c.o][--start-group][x.a][y.a][--end-group][d.o][e.o]' -T input d.o empty.o e.o
rm -f refused
line=$(LD_PROGRAM="$work/odd" "$driver" core.rlib 2>&1)
case $line in
"[/"*"/core.rlib.a]") compare yes yes ;;
*) compare '[../core.rlib.a]' "$line" ;;
esac

if command -v ar >/dev/null; then
    mkdir thin
    printf 'one' >'thin/a 1'
    printf 'two' >thin/b
    ar rcT thin.a 'thin/a 1' thin/b
    # A linker that takes no thin archive, and prints what the first word's members hold.
    cat >"$work/members" <<'END'
#!/bin/sh
case $1 in
/*) ar p "$1" ;;
*) echo 'ld: BadArchive (5): NotArchive (2)' >&2 && exit 1 ;;
esac
END
    chmod +x "$work/members"
    compare onetwo "$(LD_PROGRAM="$work/members" "$driver" thin.a)"
    compare onetwo "$(LD_PROGRAM="$work/members" "$driver" --start-lib 'thin/a 1' thin/b --end-lib)"
    spares thin/b ./thin/b -o thin/b --start-lib 'thin/a 1' thin/b --end-lib
    ln thin/b b
    compare "ld: cannot write b: it is ././thin/b, which this link reads or writes, 3" \
        "$(told LD_PROGRAM="$work/members" "$driver" -o b thin.a | sed q)"
    mkdir ./-tmp
    compare onetwo "$(TMPDIR=-tmp LD_PROGRAM="$work/members" "$driver" thin.a)"
    compare '' "$(ls ./-tmp)"
    gives '[x.a][y.a]' --start-lib x.a --end-lib y.a

    # Names of members that `ar` would take for words, one with a newline, and one that is no file's.
    printf 'one' >./--plugin=x.so
    printf 'two' >./@names
    ar rcT words.a ./--plugin=x.so ./@names
    compare onetwo "$(LD_PROGRAM="$work/members" "$driver" words.a)"
    printf '!<thin>\n%-48s%-10s`\n%s' // 10 'none
.o/
' >lines.a
    printf '%-16s%-12s%-6s%-6s%-8s%-10s`\n' /0 0 0 0 644 3 >>lines.a
    rm ./@names
    compare 'ld: words.a: ar can'\''t list the members of this thin archive, 2' "$(told LD_PROGRAM="$work/members" "$driver" words.a)"
    compare 'ld: lines.a: ar can'\''t list the members of this thin archive, 2' "$(told LD_PROGRAM="$work/members" "$driver" lines.a)"
fi

# Where debug data define names for other objects, copies are linked in which they don't. The linker here refuses the first
# link, and then prints the names that its files define.
if command -v as >/dev/null && command -v objcopy >/dev/null && command -v readelf >/dev/null; then
    cat >naming <<'END'
#!/bin/sh
if [ ! -e refused ]; then
    : >refused
    echo 'ld: BadSymbol (21)' >&2
    exit 1
fi
rm refused
for word do
    case $word in
    *.[ao]) readelf -SsW "$word" | awk '/ \.gnu/ { print } $5 ~ /GLOBAL|WEAK/ { printf "%s ", $8 }' ;;
    *) printf '%s ' "$word" ;;
    esac
done
END
    chmod +x naming
    export LD_PROGRAM=./naming
    rm -f refused
    fat='linked from copies without .gnu.debuglto_*; none are needed without -g, or without -flto'
    named='linked from copies in which names of debug data, as of fpc -g, are LOCAL; gdb knows no types of other units then'
    printf '.globl f\nf:\n.section .debug_ranges\n.globl end, g\nend:\ng:\n.text\n.quad g\n' | as -o pascal.o -
    printf '.section .gnu.debuglto_.debug_info\n.weak e.c.1\ne.c.1:\n.text\n.globl h\nh:\n' | as -o 'l to.o' -
    ar qcs lib/liblto.a pascal.o 'l to.o'
    cp pascal.o second.o
    compare "ld: lib/liblto.a: $fat
ld: pascal.o: $named
f -e g -Llib f h , 0" "$(told "$driver" pascal.o -e g -Llib -llto)"
    compare "ld: l to.o: $fat
h , 0" "$(told "$driver" 'l to.o')"
    compare "ld: lib/liblto.a: $fat
f h , 0" "$(told "$driver" lib/liblto.a)"
    compare "ld: pascal.o: $named
ld: cannot write pascal.o: it is pascal.o, which this link reads or writes, 3" "$(told "$driver" -o pascal.o pascal.o)"
    rm refused
    rm -f refused
    printf '.section .debug_info\n.globl f\nf:\n' | as -o both.o -
    rm lib/liblto.a
    ar qcs lib/liblto.a pascal.o both.o
    # A name that code defines too keeps both definitions.
    compare "ld: pascal.o and 1 more: $named
f f , 0" "$(told "$driver" pascal.o second.o)"
    compare "ld: lib/liblto.a: $named
f f , 0" "$(told "$driver" lib/liblto.a)"
    compare 'ld: BadSymbol (21), 1' "$(told "$driver" a.o)"
    rm -f refused lib/liblto.a
fi

# A linker whose map is the file `lines`, and whose check says what the file `says` has; its image is that of -o.
cat >checking <<'END'
#!/bin/sh
last= output=a.out
for word do
    case $word in
    -Map=*) cat lines >"${word#-Map=}" ;;
    esac
    [ "$last" != -o ] || output=$word
    last=$word
done
if [ "$last" = --check ]; then
    cat says
    grep -q yes says
else
    echo image >"$output"
fi
END
chmod +x checking
: >lines
export LD_PROGRAM=./checking
echo yes >says
compare ', 0' "$(told LD_CHECK=1 "$driver" -o image a.o)"
compare 'checked: image, 0' "$(told LD_CHECK=say "$driver" -o image a.o)"
compare ', 0' "$(told LD_CHECK=./checks "$driver" -o 'i
m' a.o)"
compare image "$(cat image)"
compare 'ld: /dev/null was not checked: it is no regular file, 0' "$(told LD_CHECK=1 "$driver" -o /dev/null a.o)"
echo 'no C10' >says
compare 'ld: the check of image says: no C10, 1' "$(told LD_CHECK=1 "$driver" -o image a.o)"
compare gone "$([ -e image ] || echo gone)"
compare 'ld: the check of image says: no C10, 1' "$(told LD_CHECK=./checks "$driver" -o image a.o)"
compare 'checked: i\x0am
ld: the check of image says: no C10' "$(cat checks)"
ln -s lib/image link
compare 'ld: the check of link says: no C10, 1' "$(told LD_CHECK=1 "$driver" -o link a.o)"
compare gone "$([ -e lib/image ] || echo gone)"

# A name that must be defined is asked for, and looked for in the map.
printf 'symbol 0000000000401000 strong 0 1 f\nsymbol 0000000000401000 weak 0 2 a\\x20b\n' >lines
compare '[-u][f][a.o][-Map=lines], 0' "$(told LD_PROGRAM="$work/print" "$driver" --require-defined f -Map=lines a.o)"
compare ', 0' "$(told "$driver" -o image --require-defined=f --require-defined='a b' --require-defined=_end a.o)"
compare image "$(cat image)"
compare 'ld: --require-defined=x20b: nothing that is linked defines it
ld: --require-defined=g: nothing that is linked defines it, 1' \
    "$(told "$driver" -o image --require-defined=x20b -require-defined g --require-defined=f a.o)"
compare gone "$([ -e image ] || echo gone)"

# What is told of a link: the map, the objects and members that are loaded, and a rule for make.
printf 'one' >m.o
[ -f thin.a ] && ar qc lib/libm.a m.o
printf 'ldmap 2\nobject 0 0 0 a\\x20b.o\nobject 1 1 8 lib/libm.a\n' >lines
compare "$(cat lines), 0" "$(told "$driver" -M a.o)"
compare "$(cat lines), 0" "$(told "$driver" -Map=- a.o)"
compare "$(cat lines)" "$("$driver" -M -Map=map a.o && cat map)"
[ -f thin.a ] && compare 'a\x20b.o
lib/libm.a(m.o), 0' "$(told "$driver" --trace a.o)"
compare 'i$$m:\' "$("$driver" -o 'i$m' -e f a.o "d ir/q'r.o" -Llib -lm a.o --dependency-file=rule && sed 's/ //;q' rule)"
compare "  a.o \\
  d\\ ir/q'r.o \\
  lib/libm.a

a.o:

d\\ ir/q'r.o:

lib/libm.a:" "$(sed 1d rule)"
# What is told of a right link that its author may not have meant, of the objects and members that are loaded.
compare 'ld: --gc-sections: nothing is left out here, so the image has all sections of its objects, 0' \
    "$(told LD_NOTES=1 "$driver" --gc-sections a.o)"
compare ', 0' "$(told "$driver" --gc-sections a.o)"
if command -v as >/dev/null && command -v readelf >/dev/null; then
    printf '.section .note.GNU-stack,"x",@progbits\n.section .dtors,"aw"\n.quad 0\n' | as -o noted.o -
    printf '.section .note.GNU-stack,"",@progbits\n.section .ctors.9,"aw"\n.quad 0\n' | as -o 'a b.o' -
    ar qc lib/libn.a noted.o m.o 'a b.o'
    data=$(ar tO lib/libn.a | sed -n 's/^a b.o //p')
    printf 'ldmap 2\nobject 0 0 0 noted.o\nobject 1 1 %s lib/libn.a\n' $((data - 60)) >lines
    compare 'ld: noted.o: it asks for a stack that may be executed, and no image here has one
ld: noted.o: nothing runs the functions that its section .dtors names
ld: lib/libn.a(a b.o): nothing runs the functions that its section .ctors.9 names, 0' "$(told LD_NOTES=1 "$driver" a.o)"
fi
export LD_PROGRAM="$work/print"

# Where a link is refused, the places of the reason follow.
cat >places <<'END'
#!/bin/sh
echo 'ld: Undefined (10): f'
echo "a.o: .text+0x5: $* asks for f"
END
printf '#!/bin/sh\necho "ld: Undefined (10): f" >&2\nexit 1\n' >refusing
chmod +x places refusing
compare 'ld: Undefined (10): f
ld: a.o: .text+0x5: -s a.o asks for f, 1' "$(told LD_WHY=./places LD_PROGRAM=./refusing "$driver" -s a.o)"
compare 'ld: Undefined (10): f
ld: a.o: .text+0x5: -s a.o asks for f, 1' "$(told LD_CHECK=1 LD_WHY=./places LD_PROGRAM=./refusing "$driver" -s a.o | sed 's/ -Map=[^ ]*//')"
compare 'ld: Undefined (10): f, 1' "$(told LD_PROGRAM=./refusing "$driver" -s a.o)"
# So they do where a check says no.
compare 'ld: the check of image says: no C10
ld: a.o: .text+0x5: -o image a.o --check asks for f, 1' \
    "$(told LD_CHECK=1 LD_WHY=./places LD_PROGRAM=./checking "$driver" -o image a.o | sed 's/ -Map=[^ ]*//')"

# In place of a copy the file is named of which it was made.
printf '#!/bin/sh\necho "ld: BadObject (4): NotElf64 (3)" >&2\nexit 1\n' >unreading
chmod +x unreading
compare 'ld: BadObject (4): NotElf64 (3)
ld: a.o: .text+0x5: core.rlib -o a.out asks for f, 1' \
    "$(told LD_WHY=./places LD_PROGRAM=./unreading "$driver" core.rlib -o a.out)"
printf '#!/bin/sh\nexit 3\n' >absent
chmod +x absent
printf '#!/bin/sh\necho "ld: cannot write none/x"\necho "none/x: $*: no folder"\n' >unwritten
chmod +x unwritten
: >there.o
compare 'ld: none/x: -o none/x there.o: no folder, 3' \
    "$(told LD_WHY=./unwritten LD_PROGRAM=./absent "$driver" -o none/x there.o)"
compare 'ld: -lz: no directory of -L has libz.a
ld: b.o: there is no such file' "$(LD_PROGRAM=./absent "$driver" -o c.o says '-lx y' -lz b.o -Llib "-Ld ir" 2>&1)"

refuses '-shared: no shared object is made here; LD_OTHER names a linker that makes them' -shared a.o
refuses '-pie: the image has fixed addresses; take cc-static as the compiler, or give it -static, and no -pie or -static-pie' a.o -pie
refuses '-dynamic-linker /lib/l.so: only static images are made; take cc-static as the compiler, or give it -static -no-pie' -dynamic-linker /lib/l.so a.o
refuses '-T none: there is no such file' -T none a.o
refuses "-T names: no layout but the linker's own is made here" -T names a.o
refuses "-T lays: no layout but the linker's own is made here" -T lays a.o
refuses "-Ttext=0x1000: no layout but the linker's own is made here" -Ttext=0x1000 a.o
refuses '--defsym=a=b: names mean what the objects say' --defsym=a=b a.o
refuses '--wrap: names mean what the objects say' --wrap f a.o
refuses 'v: there is no such file, a list of names' --version-script=v a.o
refuses '-r: no relocatable object is made here; LD_OTHER names a linker that makes them' -r a.o
refuses '-q: no relocations are kept in an image here' -q a.o
# Another linker makes these, where one is named, and only these.
printf '#!/bin/sh\nprintf "other: "\n[ $# -eq 0 ] || printf "[%%s]" "$@"\n' >other
chmod +x other
echo '-o x.so -shared' >shares
export LD_OTHER=./other
compare 'ld: -shared: x.so is made by ./other, and not checked
other: [-shared][-z][execstack][-o][x.so][a b.o], 0' "$(told LD_CHECK=1 "$driver" -shared -z execstack -o x.so 'a b.o')"
compare 'ld: -r: a.out is made by ./other, and not checked
other: [a.o][-r], 0' "$(told "$driver" a.o -r)"
compare 'ld: -shared: x.so is made by ./other, and not checked
other: [@shares][a.o], 0' "$(told "$driver" @shares a.o)"
gives '[-e][-shared][a.o]' -e -shared a.o
refuses '-q: no relocations are kept in an image here' -q a.o
compare 'ld: LD_OTHER: there is no linker ./none, 2' "$(told LD_OTHER=./none "$driver" -r a.o)"
compare "ld: LD_OTHER: $driver.lld is this script, 2" "$(told LD_OTHER="$driver.lld" "$driver" -r a.o)"
unset LD_OTHER
refuses '-z execstack: the header of the stack is that of docs/PROFILE.md' -zexecstack a.o
refuses '-z cet-report=error: no link is refused for the notes of its objects' -z cet-report=error a.o
gives '[a.o]' -z cet-report=warning a.o
refuses '-m elf_i386: only elf_x86_64 is linked' -melf_i386 a.o
refuses '-l:none.o: no directory of -L has this file' -l:none.o a.o
refuses '--frob: this word is not known here' --frob a.o
refuses 'the last word has no value' a.o -o
refuses '--start-group: the group has no end' --start-group x.a

compare "[-o][b$(printf '\033')[2J][a.o]ld: -o
ld: b\x1b[2J
ld: a.o, 0" "$(told LD_WORDS=1 "$driver" -o "b$(printf '\033')[2J" a.o)"
refuses '-l:a\x0ab: no directory of -L has this file' "-l:a
b" a.o
refuses "--start-lib: a --start-lib in a --start-lib" --start-lib --start-lib a.o

compare "$("$driver" --version | sed q)" "$("$driver" -v)"
compare "$("$driver" --version)" "$("$driver" -pie --version)"
compare "It runs $work/print, as LD_PROGRAM says: whether that is the proved linker, this script doesn't know." \
    "$("$driver" --version | sed 1d)"
case $(told LD_PROGRAM=./none "$driver" a.o) in
"ld: there is no linker at ./none; to get the proved one: cd ${driver%/tools/driver/ld}/crates/ld && rt run"*LD_UNPROVED=1", 2") compare yes yes ;;
*) compare 'no linker' "$(told LD_PROGRAM=./none "$driver" a.o)" ;;
esac

# The compilers: that which is named, or musl-gcc.
tools=${driver%/ld}
here="[-B][$tools]"
bare="[-fno-exceptions][-fno-rtti][-fno-threadsafe-statics][-fno-gnu-unique]"
compare "${here}[-static][a.c]" "$(CC_FOR_LD=$work/print "$tools/cc" -static a.c)"
compare "[-m64]${here}[-static][a c]" "$(CC_FOR_LD="$work/print -m64" "$tools/cc-static" 'a c')"
compare "${here}[-o][b][-shared][a.c]" "$(CC_FOR_LD=$work/print "$tools/cc-static" -o b -shared a.c)"
compare "[-m64]${here}[-static][a c]" "$(CXX_FOR_LD="$work/print -m64" "$tools/c++-static" 'a c')"
compare "${here}[-shared][a.c]" "$(CXX_FOR_LD=$work/print "$tools/c++-static" -shared a.c)"
ln -s "$tools/cc-static" compiler
compare "${here}[-static][a.c]" "$(CC_FOR_LD=$work/print ./compiler a.c)"
mkdir path
cp print path/musl-gcc
compare "${here}[a.c]" "$(PATH=$work/path:$PATH "$tools/cc" a.c)"
compare "${here}${bare}[-static][a.c]" "$(PATH=$work/path:$PATH "$tools/c++-static" a.c)"
for name in cc c++ cc-static c++-static; do
    compare "[--version]$("$driver" -v)" "$(PATH=$work/path:$PATH "$tools/$name" --version)"
done
compare ', 1' "$(told CC_FOR_LD=false "$tools/cc" --version)"
compare 'cc: there is no ./none: in Debian musl-gcc is in musl-tools; CC_FOR_LD (C++: CXX_FOR_LD) names another compiler, 127' \
    "$(told CC_FOR_LD='./none -m64' "$tools/cc-static" a.c)"
# By whichever name a compiler looks for a linker, it finds this one.
for name in lld bfd gold mold; do
    compare "$("$driver" -v)" "$("$driver.$name" -v)"
    for compiler in gcc clang; do
        command -v "$compiler" >/dev/null && command -v as >/dev/null || continue
        echo | as -o real.o -
        case $("$compiler" -B "${driver%/ld}" "-fuse-ld=$name" -static -nostdlib real.o 2>&1) in
        *"[real.o]") compare yes yes ;;
        *) compare "$compiler -fuse-ld=$name by this driver" 'by another' ;;
        esac
    done
done
case $("$driver" -v) in
*GNU*) compare yes yes ;;
*) compare GNU "$("$driver" -v)" ;;
esac

# What glibc's malloc is told, where nobody tells it anything.
printf '#!/bin/sh\necho "$GLIBC_TUNABLES"\n' >pages
chmod +x pages
compare 'glibc.malloc.hugetlb=1, 0' "$(told -u GLIBC_TUNABLES LD_PROGRAM="$work/pages" "$driver" a.o)"
compare ', 0' "$(told GLIBC_TUNABLES= LD_PROGRAM="$work/pages" "$driver" a.o)"

# Installed, all is where it is looked for; after --uninstall no file is left.
root=${driver%/tools/driver/ld}
mkdir -p tree/crates/ld/out tree/docs
cp -r "$root/tools" tree/tools
cp -r "$root/docs/man" tree/docs/man
compare "install.sh: there is no proved linker at $work/tree/crates/ld/out/ld: cd crates/ld && rt run builds it, 2" \
    "$(told DESTDIR="$work/dest" tree/tools/install.sh /p)"
cp print tree/crates/ld/out/ld
compare ', 0' "$(told DESTDIR="$work/dest" tree/tools/install.sh /p)"
compare 'bin/cakthuy-c++
bin/cakthuy-c++-static
bin/cakthuy-cc
bin/cakthuy-cc-static
bin/cakthuy-ld
libexec/cakthuy/c++
libexec/cakthuy/c++-static
libexec/cakthuy/cc
libexec/cakthuy/cc-static
libexec/cakthuy/commit
libexec/cakthuy/ld
libexec/cakthuy/ld.bfd
libexec/cakthuy/ld.gold
libexec/cakthuy/ld.lld
libexec/cakthuy/ld.mold
share/man/man1/cakthuy-c++-static.1
share/man/man1/cakthuy-c++.1
share/man/man1/cakthuy-cc-static.1
share/man/man1/cakthuy-cc.1
share/man/man1/cakthuy-ld-debug.1
share/man/man1/cakthuy-ld-judge.1
share/man/man1/cakthuy-ld-why.1
share/man/man1/cakthuy-ld.1
share/man/man5/cakthuy-map.5' "$(cd dest/p && find . ! -type d ! -path '*/judge/*' | sed 's,^\./,,' | LC_ALL=C sort)"
compare '../libexec/cakthuy/c++-static' "$(readlink dest/p/bin/cakthuy-c++)"
compare '[-s][a.o], 0' "$(told -u LD_PROGRAM dest/p/libexec/cakthuy/ld -s a.o)"
compare '[-s][a.o], 0' "$(told -u LD_PROGRAM LD_UNPROVED=1 dest/p/libexec/cakthuy/ld -s a.o)"
# An image for tools is checked with the words with which it was linked; where the check says no, no places are told.
mkdir -p tree/crates/ld_debug/out
cp checking tree/crates/ld_debug/out/ld_debug
echo 'no C10' >says
compare 'ld: the check of image says: no C10, 1' \
    "$(told -u LD_PROGRAM LD_CHECK=1 LD_WHY=./places tree/tools/driver/ld -S -o image a.o | sed 's/ -Map=[^ ]*//')"
printf '#!/bin/sh\nfor word do [ "$word" != --check ] || echo "$*" >words; done\necho image >image\n' >tree/crates/ld_debug/out/ld_debug
told -u LD_PROGRAM LD_CHECK=1 tree/tools/driver/ld -S -o image a.o >said
compare ', 0' "$(cat said)"
compare '-S -o image a.o --check' "$(sed 's/ -Map=[^ ]*//' words)"
rm -r tree/crates/ld_debug image
compare "It runs the proved linker, $(readlink -f dest/p/bin/cakthuy-ld)." \
    "$(env -u LD_PROGRAM dest/p/libexec/cakthuy/ld --version | sed 1d)"
printf '#!/bin/sh\necho "for tools: $*"\n' >dest/p/bin/cakthuy-ld-debug
chmod +x dest/p/bin/cakthuy-ld-debug
compare 'for tools: a.o, 0' "$(told -u LD_PROGRAM dest/p/libexec/cakthuy/ld a.o)"
compare 'for tools: -S a.o, 0' "$(told -u LD_PROGRAM dest/p/libexec/cakthuy/ld --strip-debug a.o)"
compare '[a.o], 0' "$(told -u LD_PROGRAM LD_PLAIN=1 dest/p/libexec/cakthuy/ld a.o)"
compare '[a.o], 0' "$(told -u LD_PROGRAM LD_PLAIN=1 dest/p/libexec/cakthuy/ld -S a.o)"
compare '[-s][a.o], 0' "$(told -u LD_PROGRAM dest/p/libexec/cakthuy/ld --strip-all a.o)"
compare "[-B][$work/dest/p/libexec/cakthuy][-static][a.c], 0" "$(told CC_FOR_LD=./print dest/p/bin/cakthuy-cc-static a.c)"
case $(CC_FOR_LD=./print dest/p/bin/cakthuy-cc --version) in
"[--version]Cakthuy ld "*", commit $(cat dest/p/libexec/cakthuy/commit), "*) compare yes yes ;;
*) compare 'the commit' "$(CC_FOR_LD=./print dest/p/bin/cakthuy-cc --version)" ;;
esac
rm dest/p/bin/cakthuy-ld dest/p/bin/cakthuy-ld-debug
compare "ld: there is no linker at dest/p/libexec/cakthuy/../../bin/cakthuy-ld: tools/install.sh of its tree puts it there, 2" \
    "$(told -u LD_PROGRAM dest/p/libexec/cakthuy/ld a.o)"
compare ', 0' "$(told DESTDIR="$work/dest" tree/tools/install.sh --prefix=/p --uninstall)"
# The unproved programs are taken where that is asked for, and say so.
mkdir -p tree/out/unproved
printf '#!/bin/sh\necho "unproved: $*"\n' >tree/out/unproved/ld
chmod +x tree/out/unproved/ld
compare 'unproved: a.o, 0' "$(told -u LD_PROGRAM LD_UNPROVED=1 tree/tools/driver/ld a.o)"
compare '[a.o], 0' "$(told -u LD_PROGRAM tree/tools/driver/ld a.o)"
compare "It runs the UNPROVED linker, $(readlink -f tree/out/unproved/ld), as LD_UNPROVED says." \
    "$(env -u LD_PROGRAM LD_UNPROVED=1 tree/tools/driver/ld --version | sed 1d)"
compare '' "$(find dest ! -type d)"

compare 'install.sh: PREFIX is an absolute path, and p is none, 2' "$(told tree/tools/install.sh --prefix=p)"
compare 'install.sh: --frob is no word of this script: --help tells them, 2' "$(told tree/tools/install.sh --frob)"
compare 'install.sh: /q: PREFIX is named already, /p, 2' "$(told tree/tools/install.sh /p /q)"
case $(told DESTDIR="$work/none" tree/tools/install.sh --help) in
"Installs the proved programs"*--prefix=PREFIX*", 0") compare '' "$(ls none 2>/dev/null)" ;;
*) compare 'what install.sh does' "$(told DESTDIR="$work/none" tree/tools/install.sh --help)" ;;
esac

[ "$failed" -eq 0 ] && echo "$cases cases, as wanted"
exit "$failed"
