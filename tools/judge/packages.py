#!/usr/bin/env python3
"""Builds packages from their sources with musl, links each program of theirs again by each linker, and prints what `ld-judge` says.

    tools/judge/packages.py SOURCES [NAME..]

SOURCES is a folder with the unpacked sources of packages (as `apt-get source` leaves them); NAME picks some of PACKAGES. Each is built
by its own makefile with CC, in a copy. Its links are noted, and done again by GNU ld, gold, LLD and mold, with their own flags, with
-O2, stripped, and with a table of call frames, behind tools/judge/bin. LLD and mold aren't given the -dynamic-linker that musl-gcc names
for static links too: they would make a PT_INTERP.
A row of the table is a package and a linker: how many links got a yes, and what was said of the others. LD_JUDGE and LD_PROGRAM are the
judge and our linker, where they aren't the proved ones.
"""

import collections
import json
import os
import shutil
import subprocess
import sys
import tempfile
from pathlib import Path
from typing import Dict, List

HERE = Path(__file__).resolve().parent
# What a package's folder begins with, and how it is built.
PACKAGES: Dict[str, str] = {
    "bzip2": "make CC=\"$CC\" CFLAGS=-O2 bzip2.o libbz2.a && $CC -o bzip2 bzip2.o libbz2.a && $CC -O2 -c bzip2recover.c && $CC -o bzip2recover bzip2recover.o",
    "dash": "{ [ -x configure ] || autoreconf -fi; } && CFLAGS=-O2 ./configure --host=x86_64-linux-musl && make",
    "lua": "cd src && echo '#define DEB_HOST_MULTIARCH \"x\"' >lua5.4-deb-multiarch.h && $CC -I. -O2 -DLUA_USE_POSIX -c $(ls *.c | grep -v luac.c) && $CC -o lua *.o -lm",
    "mawk": "CFLAGS=-O2 ./configure --with-builtin-srand && make mawk",
    "sqlite3": "(CC=gcc ./configure && make CC=gcc sqlite3.c shell.c) && $CC -O2 -DSQLITE_THREADSAFE=0 -DSQLITE_OMIT_LOAD_EXTENSION -c shell.c sqlite3.c && $CC -o sqlite3 shell.o sqlite3.o",
    "zlib": "CFLAGS=-O2 ./configure --static && make minigzip example",
}
COMPILER = "musl-gcc -static"
NOTING = """#!/usr/bin/env python3
import json, os, sys
with open(os.environ["NOTED_LINKS"], "a") as noted:
    noted.write(json.dumps([os.getcwd(), sys.argv[1:]]) + "\\n")
os.execvp("ld.bfd", ["ld.bfd"] + sys.argv[1:])
"""
WAYS = [(linker, flags) for linker in ("ld.bfd", "ld.gold", "ld.lld", "ld.mold") for flags in ([], ["-O2"], ["-s"], ["--eh-frame-hdr"])]


def links_of(sources: Path, name: str, room: Path) -> "List[List[object]]":
    """The folder and the words of each link of a package whose program and objects are left in the end."""
    folder = next(path for path in sorted(sources.iterdir()) if path.is_dir() and path.name.startswith(name))
    copy, bin_, noted = room / name, room / "bin", room / f"{name}.links"
    shutil.copytree(folder, copy, symlinks=True)
    bin_.mkdir(exist_ok=True)
    (bin_ / "ld.bfd").write_text(NOTING)
    (bin_ / "ld.bfd").chmod(0o755)
    env = dict(os.environ, CC=f"{COMPILER} -B{bin_}/ -fuse-ld=bfd", NOTED_LINKS=str(noted))
    subprocess.run(PACKAGES[name], shell=True, cwd=copy, env=env, stdout=subprocess.DEVNULL, stderr=subprocess.DEVNULL, check=False)
    if not noted.exists():
        return []
    last = {}
    for line in noted.read_text().splitlines():
        where, words = json.loads(line)
        output = Path(where) / words[words.index("-o") + 1] if "-o" in words else Path(where) / "a.out"
        whole = all((Path(where) / word).exists() for word in words if word.endswith(".o"))
        if output.exists() and whole and "conftest" not in output.name:
            last[output] = [where, words]
    return list(last.values())


def without_loader(words: List[str]) -> List[str]:
    """Words without -dynamic-linker and its value."""
    at = words.index("-dynamic-linker") if "-dynamic-linker" in words else len(words)
    return words[:at] + words[at + 2 :]


def said(link: "List[object]", linker: str, flags: List[str]) -> str:
    """What is said of a link by a linker."""
    where, words = str(link[0]), [str(word) for word in link[1]]  # type: ignore[attr-defined]
    words = without_loader(words) if linker in ("ld.lld", "ld.mold") else words
    with tempfile.TemporaryDirectory() as folder:
        at = words.index("-o") + 1
        words[at] = f"{folder}/image"
        made = subprocess.run([str(HERE / "bin" / linker)] + flags + words, cwd=where, stderr=subprocess.PIPE, text=True, check=False)
    line = (made.stderr.strip().splitlines() or ["nothing is said"])[-1]
    return "yes" if line.startswith("judged: ") else line.split(f": {folder}")[0]


def main() -> int:
    if len(sys.argv) < 2:
        sys.exit("usage: packages.py SOURCES [NAME..]")
    print("| package | linker | links | yes | else |\n|---|---|---|---|---|")
    with tempfile.TemporaryDirectory() as room:
        for name in sys.argv[2:] or list(PACKAGES):
            links = links_of(Path(sys.argv[1]), name, Path(room))
            for linker in dict.fromkeys(linker for linker, _ in WAYS):
                answers = [said(link, linker, flags) for link in links for one, flags in WAYS if one == linker]
                count = collections.Counter(answers)
                others = ", ".join(f"{times} {text}" for text, times in sorted(count.items()) if text != "yes")
                print(f"| {name} | {linker} | {len(answers)} | {count['yes']} | {others} |", flush=True)
    return 0


if __name__ == "__main__":
    sys.exit(main())
