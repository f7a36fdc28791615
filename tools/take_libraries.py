#!/usr/bin/env python3
"""Takes the libraries that a run of the gate in another checkout has proved, so that checks here begin at once.

    tools/take_libraries.py CHECKOUT LOG

CHECKOUT is the top of a clone in which `rt ci` runs or has run, LOG what it printed: of the crates that it says are proved,
those whose sources, and those of all that is below them, are the same here get its library, by hard links. The gate leaves
its libraries without stamps, for they hold statements alone; here each gets the stamp that `rt` would give it, and so is
taken as built. No verdict rests on that: the gate proves by itself. Run it again as more is proved.

It stands on the inside of the kit (bin/rt and bin/rtlib.py).
"""

import importlib.machinery
import importlib.util
import os
import re
import shutil
import subprocess
import sys
from pathlib import Path

ROOT = Path(__file__).resolve().parent.parent


def kit():
    """The module of the command `rt`, whose crates read crates.txt."""
    loader = importlib.machinery.SourceFileLoader("rt_of_kit", os.path.realpath(shutil.which("rt")))
    module = importlib.util.module_from_spec(importlib.util.spec_from_loader("rt_of_kit", loader))
    loader.exec_module(module)
    made = module.rtlib.Crate.__init__

    def make(self, *given, **named):
        made(self, *given, **named)
        module.read_files(self)

    module.rtlib.Crate.__init__ = make
    return module.rtlib


def stamp(rtlib, folder):
    """The sum of all that a crate's library is made from."""
    os.chdir(folder)
    return rtlib.Crate(str(folder), rtlib.root_above(str(folder)) or str(folder), {}).stamp()


def names():
    """The crates of this tree, in the order of crates.txt."""
    lines = (line.split("#")[0].split(":")[0].split() for line in (ROOT / "crates.txt").read_text().splitlines())
    return [words[0] for words in lines if words]


def main():
    if len(sys.argv) != 3:
        print(__doc__.split("\n\n")[1].strip(), file=sys.stderr)
        return 2
    other, log = Path(sys.argv[1]).resolve(), Path(sys.argv[2]).read_text(errors="replace")
    proved, rtlib, taken = set(re.findall(r"^rt: (\w+) proved", log, re.M)), kit(), 0
    for name in names():
        here, there = ROOT / "crates" / name, other / "crates" / name
        library = there / "out" / "rlib"
        if name not in proved or not (library / f"{name}.rlib").is_dir():
            continue
        own, to = stamp(rtlib, here), here / "out" / "rlib"
        kept = to / "stamp"
        if stamp(rtlib, there) != own or kept.is_file() and kept.read_text() == own:
            continue
        shutil.rmtree(to, ignore_errors=True)
        to.parent.mkdir(exist_ok=True)
        subprocess.run(["cp", "-al", str(library), str(to)], check=True)
        kept.unlink(missing_ok=True)
        kept.write_text(own)
        taken += 1
    print(f"{taken} libraries taken")
    return 0


if __name__ == "__main__":
    sys.exit(main())
