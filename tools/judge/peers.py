"""Reads the maps of lld, mold, GNU ld and gold: where each section of an input stands, by the input's label and the section's name."""

import re
from collections import deque
from typing import Deque, Dict, Optional, Tuple

Spots = Dict[Tuple[str, str], Deque[Tuple[int, int]]]

# VMA, LMA, size, alignment; an input section is eight columns in, a symbol sixteen. Behind them is FILE:(SECTION).
LLD_LINE = re.compile(r" *([0-9a-f]+) +[0-9a-f]+ +([0-9a-f]+) +\d+ {9}(?=\S)")
# mold has one address, with 0x, and sizes in decimal digits.
MOLD_HEAD = re.compile(r" +VMA +Size Align Out +In +Symbol$")
MOLD_LINE = re.compile(r" +0x([0-9a-f]+) +(\d+) +\d+ {9}(?=\S)")
# What the list of GNU ld and that of gold begin with.
BFD_HEADS = ("Linker script and memory map", "Memory map")
BFD_NAME = re.compile(r" ([^\s*(]\S*)$")
BFD_LINE = re.compile(r" ([^\s*(]\S*)?\s+0x([0-9a-f]+)\s+0x([0-9a-f]+) (\S.*)$")


def of_table(lines: "list[str]", form: "re.Pattern[str]", base: int) -> Spots:
    """The rows of a table whose sizes have a base."""
    found: Spots = {}
    for line in lines:
        part = form.match(line)
        if part and line.endswith(")"):
            label, _, name = line[part.end() : -1].rpartition(":(")
            found.setdefault((label, name), deque()).append((int(part[1], 16), int(part[2], base)))
    return found


def of_bfd(lines: "list[str]") -> Spots:
    """A long name has a line of its own, and what belongs to it the next one."""
    found: Spots = {}
    name: Optional[str] = None
    begin = next(lines.index(head) for head in BFD_HEADS if head in lines)
    for line in lines[begin:]:
        alone = BFD_NAME.match(line)
        part = BFD_LINE.match(line)
        if part and (part[1] or name):
            found.setdefault((part[4], part[1] or name or ""), deque()).append((int(part[2], 16), int(part[3], 16)))
        name = alone[1] if alone else None
    return found


def read(text: str) -> Spots:
    """The addresses and sizes of input sections, in the order of the map."""
    lines = text.split("\n")
    if any(head in lines for head in BFD_HEADS):
        return of_bfd(lines)
    if MOLD_HEAD.match(lines[0]):
        return of_table(lines, MOLD_LINE, 10)
    return of_table(lines, LLD_LINE, 16)
