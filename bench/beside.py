#!/usr/bin/env python3
"""Measures the linker beside the newest LLD and mold, one run over all inputs, on one thread.

    python3 bench/beside.py [--runs N] [--scale F] [--program LD] [--libraries FOLDER] [--json FILE] [--symbols] [INPUT..]

The inputs are those of bench/run.py, `cpp`: the archive of bench/llvm.py (Debian's llvm-14-dev), and `musl`: the C program
of examples/musl_static.sh, both where what they need is there. The rows of an input:

    ours            link with -s
    ours, map       link with -s and -Map=
    check           --check of that, which must say yes
    lld             the newest ld.lld-N on PATH, else ld.lld, with -O0 -s --threads=1
    mold            -s --no-threads --no-fork

With --symbols all of these are without -s, as linkers are run by default: with a symbol table in the image.

Each number is that of the run of the least processor time (user and system) of N rounds after one of warm-up, which go
round the rows in turn; MiB are of the greatest resident set, by GNU time. The spread is how much more the greatest of
ours took than the least, in percent. It prints a table in Markdown, and with --json writes what bench/plot.py draws.

A peer that fails on an input, or isn't there, has `fails`. The exit status is 1 where a link or a check of ours fails, 2 without the program or GNU time.
"""

import argparse
import json
import os
import re
import shutil
import subprocess
import sys
import tempfile
from pathlib import Path

import llvm
import run

MUSL = Path("/usr/lib/x86_64-linux-musl")


def newest_lld():
    """The ld.lld-N of the greatest N in /usr/bin, else ld.lld; None without any."""
    versions = [int(m.group(1)) for m in (re.fullmatch(r"ld\.lld-(\d+)", p.name) for p in Path("/usr/bin").iterdir()) if m]
    return shutil.which(f"ld.lld-{max(versions)}" if versions else "ld.lld")


def peers(strip):
    """The words of each peer that is there, with -s or without."""
    lld, mold = newest_lld(), shutil.which("mold")
    found = {}
    if lld:
        found["lld"] = [lld, "-m", "elf_x86_64", "-static", "-O0", *strip, "--threads=1"]
    if mold:
        found["mold"] = [mold, "-static", *strip, "--no-threads", "--no-fork"]
    return found


def rows(folder, program, words, strip):
    """The words of each row of an input, and what each prints."""
    names = [str(word) for word in words]
    ours, mapped = [str(program), *strip, "-o"], [f"-Map={folder / 'mapped.map'}"]
    table = {
        "ours": (ours + [str(folder / "ours")] + names, ""),
        "ours, map": (ours + [str(folder / "mapped")] + mapped + names, ""),
        "check": (ours + [str(folder / "mapped")] + mapped + ["--check"] + names, "yes\n"),
    }
    for peer, begin in peers(strip).items():
        table[peer] = (begin + ["-o", str(folder / peer)] + names, "")
    return table


def measured(words, expect):
    """Runs words: seconds of user and of system, and MiB; None where they end otherwise than expected. GNU time tells
    the memory, since a child of this process would count this one's as its own."""
    with tempfile.NamedTemporaryFile("r") as usage, tempfile.TemporaryFile("r+") as printed:
        timed = [shutil.which("time"), "-f", "%M", "-o", usage.name] + words
        child = subprocess.Popen(timed, stdout=printed, stderr=subprocess.STDOUT)
        _, status, used = os.wait4(child.pid, 0)
        child.returncode = status
        printed.seek(0)
        if status or (expect and printed.read() != expect):
            return None
        return used.ru_utime, used.ru_stime, int(usage.read().split()[-1]) / 1024


def measure(folder, program, words, runs, strip):
    """Seconds of user and of system, and MiB, by row; without the peers that fail. And the spread of ours, in percent."""
    table, best, totals = rows(folder, program, words, strip), {}, []
    for number in range(runs + 1):
        for name, (line, expect) in [*table.items()]:
            result = measured(line, expect)
            if result is None and name in ("lld", "mold"):
                del table[name]
            elif result is None:
                raise run.Failed(f"{name}: failed, or printed something else: {' '.join(line[:6])} ..")
            elif number:
                if name == "ours":
                    totals.append(sum(result[:2]))
                if name not in best or sum(result[:2]) < sum(best[name][:2]):
                    best[name] = result
    least = max(min(totals), 0.001)
    return best, 100 * (max(totals) - least) / least


def musl_program(folder):
    """The C program on musl's start files and libc.a; None without musl-gcc."""
    if not shutil.which("musl-gcc"):
        return None
    program = folder / "words.o"
    flags = ["-O2", "-fPIC", "-fno-plt", "-ftls-model=initial-exec"]
    source = run.ROOT / "examples" / "musl_static" / "words.c"
    subprocess.run(["musl-gcc", *flags, "-c", "-o", str(program), str(source)], check=True)
    return [MUSL / "crt1.o", MUSL / "crti.o", program, MUSL / "libc.a", MUSL / "crtn.o"]


def made(name, folder, scale, libraries):
    """An input's words; None where it can't be made here."""
    if name == "musl":
        return musl_program(folder)
    if name != "cpp":
        make, count = run.INPUTS[name]
        return make(folder, int(count * scale))
    if not list(libraries.glob("libLLVM*.a")):
        return None
    archive, start, _ = llvm.made_input(libraries, folder)
    return [start, "--whole-archive", archive]


def cell(result):
    user, system, mib = result
    return f"{user + system:.3f} s, {mib:.0f} MiB"


def by(result, other):
    return f"{sum(result[:2]) / sum(other[:2]):.2f}" if other and sum(other[:2]) else ""


def print_rows(name, best, spread):
    """A line of the table: the rows, and ours by the others."""
    ours, lld, mold = best["ours"], best.get("lld"), best.get("mold")
    line = [name, cell(ours), cell(best["ours, map"]), cell(best["check"])]
    line += [cell(lld) if lld else "fails", cell(mold) if mold else "fails"]
    line += [by(ours, lld), by(ours, mold), by(best["ours, map"], ours), by(best["check"], best["ours, map"])]
    line.append(f"{spread:.0f} %")
    print("| " + " | ".join(line) + " |", flush=True)


def main():
    inputs = ["cpp", "musl", *run.INPUTS]
    parser = argparse.ArgumentParser(description="Measures the linker beside the newest LLD and mold.")
    parser.add_argument("--runs", type=int, default=5, help="counted rounds (5)")
    parser.add_argument("--scale", type=float, default=1.0, help="the size of made inputs, as a part of the whole (1.0)")
    parser.add_argument("--program", type=Path, default=run.PROVED, help="the linker (the proved one)")
    parser.add_argument("--libraries", type=Path, default=llvm.LIBRARIES, help=f"where libLLVM*.a are ({llvm.LIBRARIES})")
    parser.add_argument("--json", type=Path, help="a file for what bench/plot.py draws")
    parser.add_argument("--symbols", action="store_true", help="without -s, so that images have symbol tables")
    parser.add_argument("inputs", nargs="*", help=f"of {', '.join(inputs)}; all where none is named")
    options = parser.parse_args()
    unknown = [name for name in options.inputs if name not in inputs]
    if unknown:
        parser.error(f"no such input: {unknown[0]}")
    if not options.program.is_file() or not shutil.which("time"):
        print("The linker or GNU time is missing. For the proved one: cd crates/ld && rt run", file=sys.stderr)
        return 2
    strip = [] if options.symbols else ["-s"]
    ours = " ".join(["ours", *strip])
    print(f"| input | {ours} | {ours}, map | its check | LLD | mold | by LLD | by mold | map by link | check by map | spread |")
    print("|---" * 11 + "|")
    results = {}
    for name in options.inputs or inputs:
        with tempfile.TemporaryDirectory() as place:
            folder = Path(place)
            words = made(name, folder, options.scale, options.libraries)
            if words is None:
                print(f"{name}: what it is made of isn't here", file=sys.stderr)
                continue
            results[name], spread = measure(folder, options.program.resolve(), words, options.runs, strip)
        print_rows(name, results[name], spread)
    if options.json:
        options.json.write_text(json.dumps(results, indent=1) + "\n")
    return 0


if __name__ == "__main__":
    try:
        sys.exit(main())
    except run.Failed as error:
        print(error, file=sys.stderr)
        sys.exit(1)
