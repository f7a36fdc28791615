#!/usr/bin/env python3
"""Says which modules have the name of a library below their crate, which `rt verdict` and so the gate refuse.

    tools/module_names.py

The exit status is 1 where there is one.
"""

import re
import sys
from pathlib import Path

ROOT = Path(__file__).resolve().parent.parent


def libraries():
    """The libraries that each crate uses, by crates.txt."""
    lines = (line.split("#")[0].partition(":") for line in (ROOT / "crates.txt").read_text(encoding="utf-8").splitlines())
    return {name.split()[0]: used.split() for name, _, used in lines if name.strip()}


def below(crate, used):
    """The libraries that a crate uses, and those that they use."""
    found, left = set(), list(used.get(crate, []))
    while left:
        name = left.pop()
        if name not in found:
            found.add(name)
            left += used.get(name, [])
    return found


def main():
    used, wrong = libraries(), 0
    for crate in used:
        names = below(crate, used)
        for file in sorted((ROOT / "crates" / crate / "src").rglob("*.rt")):
            for name in re.findall(r"^\s*(?:pub )?mod (\w+);", file.read_text(encoding="utf-8"), re.MULTILINE):
                if name in names:
                    print(f"{file.relative_to(ROOT)}: module {name} has the name of a library")
                    wrong = 1
    return wrong


if __name__ == "__main__":
    sys.exit(main())
