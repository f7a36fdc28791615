#!/bin/sh
# Installs the proved programs, what makes a compiler link by them, the scripts that judge other linkers' images, and the man
# pages:
#
#     tools/install.sh [--uninstall] [--prefix=PREFIX | PREFIX]
#
# PREFIX is an absolute path, /usr/local where none is given; before it goes $DESTDIR. There will be
#
#     bin/cakthuy-ld, bin/cakthuy-ld-why      the programs (ld-why, and cakthuy-ld-debug and cakthuy-ld-judge, where they are built)
#     bin/cakthuy-cc, bin/cakthuy-cc-static   compilers that link by ours; for C++ cakthuy-c++ and cakthuy-c++-static, one script
#     libexec/cakthuy                         ld, cc and so on: `gcc -B PREFIX/libexec/cakthuy` links by ours (docs/DRIVER.md)
#     libexec/cakthuy/judge                   link.py, judge.py and certificate.py; in bin, linkers whose links are judged
#                                             (docs/JUDGING.md)
#     share/man                               the manual
#
# Nothing is compiled here: `rt ci`, or `rt run` in crates/ld and crates/ld_why, proves and builds the programs. With
# --uninstall these files are removed, and folders of ours that are empty then. --help prints this.
set -eu

root=$(cd "$(dirname "$0")/.." && pwd)
uninstall=no
prefix=

# fail TEXT: says what is wrong with the words, and ends.
fail() {
    echo "install.sh: $1" >&2
    exit 2
}

for word do
    case $word in
    --help | -h)
        sed -n '2,/^set -eu/ s/^# \{0,1\}//p' "$0"
        exit 0
        ;;
    --uninstall) uninstall=yes ;;
    --prefix=* | /*)
        [ -z "$prefix" ] || fail "$word: PREFIX is named already, $prefix"
        prefix=${word#--prefix=}
        case $prefix in
        /*) ;;
        *) fail "PREFIX is an absolute path, and $prefix is none" ;;
        esac
        ;;
    -*) fail "$word is no word of this script: --help tells them" ;;
    *) fail "PREFIX is an absolute path, and $word is none" ;;
    esac
done
prefix=${prefix:-/usr/local}
to=${DESTDIR-}$prefix

# put MODE FILE PATH: installs a file, or removes what was installed.
put() {
    if [ "$uninstall" = yes ]; then
        rm -f "$to/$3"
    else
        install -d "$to/$(dirname "$3")"
        install -m "$1" "$2" "$to/$3"
    fi
}

# link TARGET PATH: installs a symbolic link, or removes it.
link() {
    if [ "$uninstall" = yes ]; then
        rm -f "$to/$2"
    else
        install -d "$to/$(dirname "$2")"
        ln -sf "$1" "$to/$2"
    fi
}

# program CRATE NAME: a proved program, if it is built.
program() {
    built=$root/crates/$1/out/$1
    if [ "$uninstall" = yes ] || [ -x "$built" ]; then
        put 755 "$built" "bin/$2"
    elif [ -d "$root/crates/$1" ]; then
        echo "install.sh: $2 is left out: cd crates/$1 && rt run builds it" >&2
    fi
}

if [ "$uninstall" = no ] && [ ! -x "$root/crates/ld/out/ld" ]; then
    fail "there is no proved linker at $root/crates/ld/out/ld: cd crates/ld && rt run builds it"
fi
program ld cakthuy-ld
program ld_why cakthuy-ld-why
program ld_debug cakthuy-ld-debug
program ld_judge cakthuy-ld-judge

put 755 "$root/tools/driver/ld" libexec/cakthuy/ld
for name in cc c++ cc-static c++-static; do
    put 755 "$root/tools/driver/$name" "libexec/cakthuy/$name"
    link "../libexec/cakthuy/$name" "bin/cakthuy-$name"
done
# CMake takes bin/cakthuy-c++ for C++ where bin/cakthuy-cc-static is the compiler of C, since it goes by the front of the name.
link ../libexec/cakthuy/c++-static bin/cakthuy-c++
for name in lld bfd gold mold; do
    link ld "libexec/cakthuy/ld.$name"
done
commit=$(mktemp)
trap 'rm -f "$commit"' EXIT
git -C "$root" describe --always --dirty --exclude '*' >"$commit" 2>/dev/null || echo unknown >"$commit"
put 644 "$commit" libexec/cakthuy/commit

for script in "$root"/tools/judge/*.py; do
    case $script in
    */link.py | */judge.py | */certificate.py) put 755 "$script" "libexec/cakthuy/judge/${script##*/}" ;;
    */test.py) ;;
    *) put 644 "$script" "libexec/cakthuy/judge/${script##*/}" ;;
    esac
done
for script in "$root"/tools/judge/bin/*; do
    put 755 "$script" "libexec/cakthuy/judge/bin/${script##*/}"
done
for page in "$root"/docs/man/*.[0-9]; do
    put 644 "$page" "share/man/man${page##*.}/${page##*/}"
done
for name in c++ cc-static c++-static; do
    link cakthuy-cc.1 "share/man/man1/cakthuy-$name.1"
done

if [ "$uninstall" = yes ]; then
    rm -rf "$to/libexec/cakthuy/judge/__pycache__"
    for folder in libexec/cakthuy/judge/bin libexec/cakthuy/judge libexec/cakthuy; do
        [ ! -d "$to/$folder" ] || rmdir "$to/$folder" 2>/dev/null || true
    done
fi
