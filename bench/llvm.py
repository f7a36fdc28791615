#!/usr/bin/env python3
"""Measures the proved linker beside others on one large archive of real C++: LLVM's own static libraries.

    python3 bench/llvm.py [--runs N] [--libraries FOLDER] [--keep FOLDER]

The input: all members of FOLDER's libLLVM*.a (Debian's package llvm-14-dev has them in /usr/lib/llvm-14/lib, which is
looked in by itself) that lie inside the profile, in one archive, and an object that defines what they leave undefined.
Left out are members with relocations for the general or local dynamic model of thread-local storage. All of the
archive is loaded, by --whole-archive.

The linkers: the proved program crates/ld/out/ld, and ld.bfd, ld.gold, ld.lld and mold where they are on PATH, with one
thread, without a symbol table in the image (-s); ours also with table and map. The checks of ours are measured too, and
must say `yes`. Each line is the run of the least processor time of all rounds, which go round the linkers in turn: seconds
of user and of system, MiB of the greatest resident set, and the processor time of the line `ours -s` by it.

The exit status is 1 where a link or a check fails, 2 without the proved program, the libraries or GNU time.
"""

import argparse
import os
import shutil
import struct
import subprocess
import sys
import tempfile
from pathlib import Path

from run import PEERS, PROVED, Failed

LIBRARIES = Path("/usr/lib/llvm-14/lib")
DYNAMIC_THREAD_KINDS = (19, 20)  # TLSGD and TLSLD, AMD64 psABI 4.4
SYMTAB, RELA = 2, 4


def sections(data):
    """The headers of an object's sections."""
    (start,) = struct.unpack_from("<Q", data, 40)
    (count,) = struct.unpack_from("<H", data, 60)
    return [struct.unpack_from("<IIQQQQIIQQ", data, start + 64 * number) for number in range(count)]


def is_linkable(path):
    """Whether a member is an ELF object with the bindings, types and relocations of the profile."""
    data = path.read_bytes()
    if data[:4] != b"\x7fELF":
        return False
    for header in sections(data):
        offset, size = header[4], header[5]
        if header[1] == RELA:
            kinds = (struct.unpack_from("<I", data, at + 8)[0] for at in range(offset, offset + size, 24))
            if any(kind in DYNAMIC_THREAD_KINDS for kind in kinds):
                return False
        if header[1] == SYMTAB:
            infos = (data[at + 4] for at in range(offset, offset + size, 24))
            if any(info & 15 > 6 or info >> 4 > 2 for info in infos):
                return False
    return True


def members(libraries, folder):
    """The members of all libraries that can be linked, each taken out into a folder of its library."""
    found = []
    for library in sorted(libraries.glob("libLLVM*.a")):
        inside = folder / library.stem
        inside.mkdir()
        subprocess.run(["ar", "x", str(library)], cwd=inside, check=True)
        found += [path for path in sorted(inside.iterdir()) if is_linkable(path)]
    return found


def names(archive, *words):
    """The names that nm prints for an archive."""
    printed = subprocess.run(
        ["nm", *words, str(archive)], stdout=subprocess.PIPE, stderr=subprocess.DEVNULL, text=True, check=True
    ).stdout
    return {line.split()[-1] for line in printed.splitlines() if len(line.split()) > 1}


def made_input(libraries, folder):
    """The archive, the object that defines what is missing, and how many members there are."""
    taken = members(libraries, folder)
    archive, source, start = folder / "all.a", folder / "start.s", folder / "start.o"
    subprocess.run(["ar", "qcS", str(archive)] + [str(path) for path in taken], check=True)
    subprocess.run(["ranlib", str(archive)], check=True)
    missing = sorted(names(archive, "-u") - names(archive, "--defined-only"))
    lines = [".text", ".globl _start", "_start: mov $60, %eax", "xor %edi, %edi", "syscall", ".data"]
    lines += [f'.globl "{name}"\n"{name}": .quad 0' for name in missing]
    source.write_text("\n".join(lines) + "\n")
    subprocess.run(["as", "-o", str(start), str(source)], check=True)
    return archive, start, len(taken)


def measured(words, expect):
    """Runs words, which print what is expected and end with status 0: seconds of user and of system, and KiB."""
    with tempfile.NamedTemporaryFile("r") as usage:
        timed = [shutil.which("time"), "-f", "%U %S %M", "-o", usage.name] + words
        run = subprocess.run(timed, stdout=subprocess.PIPE, stderr=subprocess.STDOUT, text=True, check=False)
        user, system, kib = usage.read().split()[-3:]
    if run.returncode != 0 or (expect and run.stdout != expect):
        raise Failed(f"{words[0]}: status {run.returncode}: {run.stdout[:2000].strip()}")
    return float(user), float(system), int(kib)


def steps(folder, archive, start):
    """The words of each line, and what it prints."""
    inputs = [str(start), "--whole-archive", str(archive)]
    stripped = [str(PROVED), "-s", "-o", str(folder / "ours"), f"-Map={folder / 'ours.map'}"]
    whole = [str(PROVED), "-o", str(folder / "table"), f"-Map={folder / 'table.map'}"]
    table = {
        "ours -s": (stripped[:-1] + inputs, ""),
        "ours -s, map": (stripped + inputs, ""),
        "--check of it": (stripped + ["--check"] + inputs, "yes\n"),
        "ours, map": (whole + inputs, ""),
        "--check": (whole + ["--check"] + inputs, "yes\n"),
    }
    for peer, words in PEERS.items():
        if shutil.which(peer):
            more = ["-O0"] if peer == "ld.lld" else []
            table[f"{peer} -s"] = (words + more + ["-s", "-o", str(folder / peer)] + inputs, "")
    return table


def print_table(table, best):
    ours = sum(best["ours -s"][:2])
    print(f"  {'line':<16}{'user':>8}{'system':>8}{'MiB':>8}{'ours by it':>12}")
    for name in table:
        user, system, kib = best[name]
        print(f"  {name:<16}{user:>8.2f}{system:>8.2f}{kib / 1024:>8.0f}{ours / (user + system):>12.2f}")


def measure(folder, libraries, runs):
    archive, start, count = made_input(libraries, folder)
    print(f"{count:,} members, {archive.stat().st_size:,} bytes")
    table, best = steps(folder, archive, start), {}
    for _ in range(runs):
        for name, (words, expect) in table.items():
            result = measured(words, expect)
            if name not in best or sum(result[:2]) < sum(best[name][:2]):
                best[name] = result
    print_table(table, best)


def main():
    parser = argparse.ArgumentParser(description="Measures the proved linker beside others on LLVM's libraries.")
    parser.add_argument("--runs", type=int, default=5, help="rounds (5)")
    parser.add_argument("--libraries", type=Path, default=LIBRARIES, help=f"where libLLVM*.a are ({LIBRARIES})")
    parser.add_argument("--keep", type=Path, help="an empty folder in which the input is made, and stays")
    options = parser.parse_args()
    if not os.access(PROVED, os.X_OK):
        print("No proved linker stands at crates/ld/out/ld. To get it: cd crates/ld && rt run", file=sys.stderr)
        return 2
    if not shutil.which("time") or not list(options.libraries.glob("libLLVM*.a")):
        print("GNU time or LLVM's static libraries are missing (Debian: time, llvm-14-dev).", file=sys.stderr)
        return 2
    if options.keep:
        measure(options.keep.resolve(), options.libraries, options.runs)
        return 0
    with tempfile.TemporaryDirectory() as folder:
        measure(Path(folder), options.libraries, options.runs)
    return 0


if __name__ == "__main__":
    try:
        sys.exit(main())
    except Failed as error:
        print(error, file=sys.stderr)
        sys.exit(1)
