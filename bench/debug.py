#!/usr/bin/env python3
"""Measures the program for images with debug data beside the newest LLD and mold, on one thread.

    python3 bench/debug.py [--runs N] [--functions N] [--copies N] [--program LD_DEBUG] [--objects OBJECT..]

The input: copies of one object, each with names of its own (objcopy --prefix-symbols), of as many C functions with
arguments, locals and a structure, compiled by gcc -g -O0, and a start. The defaults make some 100 MB of `.debug_*`.
With --objects these in their place. The rows:

    ours            ld_debug
    ours, no debug  ld_debug -S
    lld             the newest ld.lld-N on PATH, else ld.lld, with -O0 --threads=1
    mold            --no-threads --no-fork

Each line is the run of the least processor time (user and system) of N rounds after one of warm-up, which go round the rows
in turn: seconds of user and of system, and MiB of the greatest resident set, by GNU time. The exit status is 1 where a link
of ours fails, 2 without the program, gcc, objcopy or GNU time.
"""

import argparse
import shutil
import subprocess
import sys
import tempfile
from pathlib import Path

import beside
import run

PROVED = run.ROOT / "crates" / "ld_debug" / "out" / "ld_debug"
FUNCTION = """struct row_{n} {{ long key_{n}; int count_{n}; char name_{n}[8]; }};
{kind}int work_{n}(struct row_{n} *row_{n}_at, int depth) {{
    int twice_{n} = 2 * depth, total_{n} = row_{n}_at->count_{n};
    for (int i_{n} = 0; i_{n} < twice_{n}; i_{n}++) {{ total_{n} += (int)row_{n}_at->key_{n}; }}
    return total_{n}{call};
}}
"""
START = "void _start(void) { for (;;) { } }\n"


def function(number):
    """A function, which calls the one before it; every other one is static."""
    call = f" + work_{number - 1}((void *)row_{number}_at, depth)" if number else ""
    return FUNCTION.format(n=number, kind="static " if number % 2 else "", call=call)


def compiled(folder, name, source):
    text, made = folder / f"{name}.c", folder / f"{name}.o"
    text.write_text(source)
    subprocess.run(["gcc", "-g", "-O0", "-fno-pic", "-ffreestanding", "-c", "-o", made, text], check=True)
    return made


def made_objects(folder, functions, copies):
    """The start, and the copies."""
    one = compiled(folder, "work", "".join(function(number) for number in range(functions)))
    found = [compiled(folder, "start", START)]
    for number in range(copies):
        found.append(folder / f"work{number}.o")
        subprocess.run(["objcopy", f"--prefix-symbols=c{number}_", one, found[-1]], check=True)
    return found


def debug_bytes(objects):
    """How many bytes the debug sections of the objects have."""
    total = 0
    for path in objects:
        printed = subprocess.run(["size", "-A", path], stdout=subprocess.PIPE, text=True, check=True).stdout
        total += sum(int(line.split()[1]) for line in printed.splitlines() if line.startswith(".debug_"))
    return total


def rows(folder, program, objects):
    """The words of each row."""
    names = [str(path) for path in objects]
    ours = [str(program), "-o"]
    table = {"ours": ours + [str(folder / "ours")] + names, "ours, no debug": ours + [str(folder / "plain"), "-S"] + names}
    for peer, begin in beside.peers().items():
        table[peer] = [word for word in begin if word != "-s"] + ["-o", str(folder / peer)] + names
    return table


def measure(table, runs):
    """Seconds of user and of system, and MiB, by row; without the peers that fail."""
    best = {}
    for number in range(runs + 1):
        for name, words in [*table.items()]:
            result = beside.measured(words, "")
            if result is None and name in beside.peers():
                del table[name]
            elif result is None:
                raise run.Failed(f"{name}: failed: {' '.join(words[:4])} ..")
            elif number and (name not in best or sum(result[:2]) < sum(best[name][:2])):
                best[name] = result
    return best


def main():
    parser = argparse.ArgumentParser(description="Measures images with debug data beside the newest LLD and mold.")
    parser.add_argument("--runs", type=int, default=5, help="counted rounds (5)")
    parser.add_argument("--functions", type=int, default=4000, help="functions of an object (4000)")
    parser.add_argument("--copies", type=int, default=80, help="copies of it (80)")
    parser.add_argument("--program", type=Path, default=PROVED, help="the linker (the proved ld_debug)")
    parser.add_argument("--objects", nargs="+", default=[], help="objects and archives in place of the made ones")
    options = parser.parse_args()
    if not options.program.is_file() or not all(shutil.which(it) for it in ("time", "gcc", "objcopy")):
        print("The linker, gcc, objcopy or GNU time is missing. For the proved one: cd crates/ld_debug && rt run", file=sys.stderr)
        return 2
    with tempfile.TemporaryDirectory() as place:
        folder = Path(place)
        objects = options.objects or made_objects(folder, options.functions, options.copies)
        print(f"{debug_bytes(objects) / 1e6:.1f} MB of debug data in {len(objects)} objects")
        best = measure(rows(folder, options.program.resolve(), objects), options.runs)
    for name, (user, system, mib) in best.items():
        ratio = beside.by(best["ours"], best[name])
        print(f"{name:<16}{user:.3f} user {system:.3f} system {mib:.0f} MiB; ours by it {ratio}")
    return 0


if __name__ == "__main__":
    try:
        sys.exit(main())
    except run.Failed as error:
        print(error, file=sys.stderr)
        sys.exit(1)
