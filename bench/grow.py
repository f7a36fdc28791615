#!/usr/bin/env python3
"""Measures how a link and its check grow with the archive of bench/llvm.py, taken once, twice and four times.

    python3 bench/grow.py [--runs N] [--program LD] [--libraries FOLDER]

A further copy of the archive has all its names with a word of its own in front (objcopy --prefix-symbols), so that it adds as much
as the first. Of each step the run of the least processor time of N rounds counts, which go round the steps in turn: seconds of
user and system, MiB of the greatest resident set, and the exponents of both from each size to its double. It needs Debian's
llvm-14-dev and time, and 2 GB on the disk.

The exit status is 1 where a link or a check fails, 2 without the libraries, the program or GNU time.
"""

import argparse
import math
import shutil
import subprocess
import sys
import tempfile
from pathlib import Path

import beside
import llvm
import run


def copy_of(archive, start, number):
    """The archive and its object with other names."""
    made = [path.with_name(f"{path.stem}{number}{path.suffix}") for path in (archive, start)]
    for path, copy in zip((archive, start), made):
        subprocess.run(["objcopy", f"--prefix-symbols=copy{number}_", str(path), str(copy)], check=True)
    subprocess.run(["ranlib", str(made[0])], check=True)
    return made


def steps(folder, program, archives, starts):
    """The words of a link with its map, and of its check, by how many copies there are."""
    table = {}
    for count in (1, 2, 4):
        words = [str(program), "-s", "-o", str(folder / "image"), f"-Map={folder / 'map'}"]
        inputs = [*map(str, starts[:count]), "--whole-archive", *map(str, archives[:count])]
        table["link", count] = (words + inputs, "")
        table["check", count] = (words + ["--check"] + inputs, "yes\n")
    return table


def measure(folder, options):
    archive, start, _ = llvm.made_input(options.libraries, folder)
    copies = [(archive, start)] + [copy_of(archive, start, number) for number in (2, 3, 4)]
    table, best = steps(folder, options.program, *zip(*copies)), {}
    for _ in range(options.runs):
        for step, (words, expect) in table.items():
            result = beside.measured(words, expect)
            if result is None:
                raise run.Failed(f"{step[0]} of {step[1]} copies fails")
            best[step] = min(best.get(step, result), result, key=lambda r: r[0] + r[1])
    for name in ("link", "check"):
        times, sizes = zip(*((sum(best[name, n][:2]), best[name, n][2]) for n in (1, 2, 4)))
        for what, values in (("s", times), ("MiB", sizes)):
            first, second = (math.log2(values[i + 1] / values[i]) for i in (0, 1))
            print(f"{name}: {', '.join(f'{value:.2f}' for value in values)} {what}, exponents {first:.2f} and {second:.2f}")


def main():
    parser = argparse.ArgumentParser(description=__doc__.split("\n")[0])
    parser.add_argument("--runs", type=int, default=3, help="rounds (3)")
    parser.add_argument("--program", type=Path, default=run.PROVED, help="the linker (the proved one)")
    parser.add_argument("--libraries", type=Path, default=llvm.LIBRARIES, help=f"where libLLVM*.a are ({llvm.LIBRARIES})")
    options = parser.parse_args()
    if not options.program.is_file() or not shutil.which("time") or not list(options.libraries.glob("libLLVM*.a")):
        print("The program, GNU time or LLVM's static libraries are missing (Debian: time, llvm-14-dev).", file=sys.stderr)
        return 2
    with tempfile.TemporaryDirectory() as folder:
        try:
            measure(Path(folder), options)
        except run.Failed as error:
            print(error, file=sys.stderr)
            return 1
    return 0


if __name__ == "__main__":
    sys.exit(main())
