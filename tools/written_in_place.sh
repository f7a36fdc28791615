#!/bin/sh
# Tries outputs that no other file can replace, which the tests in memory can't have: a file that is mounted by itself, a file in a
# folder that may not be written, and another user's file in a folder with the sticky bit. The file that is there must be written,
# and be the same file as before, with the bytes that a new file gets; a file that is read stays as it is; and on a full disk the old
# file stays. It says what it tried, and fails on any other answer. It needs root, since it mounts and becomes another user, as and
# the programs.
# usage: tools/written_in_place.sh [PROGRAM..]; without programs those of crates/ld/out and crates/ld_debug/out
set -eu
umask 022

root=$(cd "$(dirname "$0")/.." && pwd)
[ $# -gt 0 ] || set -- "$root/crates/ld/out/ld" "$root/crates/ld_debug/out/ld_debug"
if [ "$(id -u)" -ne 0 ]; then
    echo "This needs root: it mounts files, and becomes the user nobody." >&2
    exit 2
fi
for program; do
    if ! [ -x "$program" ]; then
        echo "There is no program $program." >&2
        exit 2
    fi
done

work=$(mktemp -d)
mounted=
# Takes away what was mounted, and the files.
clear() {
    [ -z "$mounted" ] || umount "$mounted"
    rm -rf "$work"
}
trap clear EXIT
trap 'exit 1' HUP INT TERM
export LC_ALL=C
chmod 755 "$work"
cd "$work"

# fails TEXT: says what is not as expected, and ends.
fails() {
    echo "$program: $1" >&2
    exit 1
}

# nobody WORD..: runs a command as another user.
nobody() {
    setpriv --reuid=65534 --regid=65534 --clear-groups "$@"
}

# old FILE: makes a file of other bytes, longer than an image, with a second name.
old() {
    head -c 20000 /dev/zero >"$1"
    ln "$1" "$1.other"
}

# written FILE NUMBER: the file must be the one of that number, and have the bytes of an image, by its other name too.
written() {
    [ "$(stat -c %i "$1")" = "$2" ] || fails "$1 is another file."
    cmp -s "$1" image || fails "$1 has other bytes than a new image."
    [ ! -e "$1.other" ] || cmp -s "$1.other" image || fails "The other name of $1 has other bytes."
    [ -z "$(find . -name '.*.ld-*')" ] || fails "A new file is left."
}

# may_run FILE: those may run the file who may read it. The owner of a file alone can say so.
may_run() {
    [ "$(stat -c %a "$1")" = 755 ] || fails "The mode of $1 is $(stat -c %a "$1")."
}

# told TEXT WORD..: a command must fail with status 3 and this line.
told() {
    line=$1
    shift
    status=0
    "$@" 2>said || status=$?
    [ "$status" = 3 ] || fails "The status is $status, and not 3."
    [ "$(cat said)" = "$line" ] || fails "It says: $(cat said)"
}

# tries PROGRAM: all of it.
tries() {
    program=$1
    cp "$program" program
    ./program a.o -o image

    mkdir mounted
    : >mounted/out
    old single
    mount --bind single mounted/out
    mounted=$work/mounted/out
    ./program a.o -o mounted/out || fails "A mounted file isn't written."
    written mounted/out "$(stat -c %i single)"
    written single "$(stat -c %i single)"
    may_run single
    umount "$mounted"
    mounted=

    mkdir shut
    old shut/out
    chown nobody shut/out
    cp a.o shut/a.o
    chown nobody shut/a.o
    number=$(stat -c %i shut/out)
    nobody ./program a.o -o shut/out || fails "A file in a folder that may not be written isn't."
    written shut/out "$number"
    may_run shut/out
    told "ld: cannot write shut/a.o" nobody ./program shut/a.o -o shut/a.o
    cmp -s a.o shut/a.o || fails "A file that is read is written."
    told "ld: cannot write shut/new" nobody ./program a.o -o shut/new
    [ ! -e shut/new ] || fails "A file is made."

    mkdir sticky
    chmod 1777 sticky
    old sticky/out
    chmod 666 sticky/out
    number=$(stat -c %i sticky/out)
    nobody ./program a.o -o sticky/out || fails "Another user's file in a sticky folder isn't written."
    written sticky/out "$number"

    mkdir full
    mount -t tmpfs -o size=64k tmpfs full
    mounted=$work/full
    head -c 20000 /dev/zero >full/out
    head -c 40000 /dev/zero >full/rest
    told "ld: cannot write full/out" ./program large.o -o full/out
    head -c 20000 /dev/zero | cmp -s - full/out || fails "On a full disk the old file is written."
    umount "$mounted"
    mounted=

    echo "$program: files are written in place where no other can replace them"
    rm -r program image mounted single single.other shut sticky full
}

cat >a.s <<'S'
        .globl _start
_start: mov $60, %eax
        xor %edi, %edi
        syscall
S
as -o a.o a.s
{
    cat a.s
    echo '.data; .fill 30000, 1, 1'
} >large.s
as -o large.o large.s
for program; do
    tries "$program"
done
