"""Reads and writes link maps (docs/MAP.md). Names stay as a map spells them, but for paths."""

import re
from dataclasses import dataclass, field
from typing import List, Optional, Tuple


@dataclass
class Loaded:
    """An `object` line: the item's number, the offset in an archive or 0, and the path."""

    item: int
    offset: int
    path: str


@dataclass
class Place:
    address: int
    size: int
    owner: int
    section: int
    name: str


@dataclass
class Common:
    address: int
    size: int
    align: int
    name: str


@dataclass
class Slot:
    """A slot, with what it stands for as the words of its line: `name NAME` or `local K SYM`."""

    address: int
    what: str
    target: Tuple[str, ...]


@dataclass
class Name:
    """A `symbol` line, with what it means as words: `strong K SYM`, `weak K SYM`, `common` or `linker`."""

    address: int
    meaning: Tuple[str, ...]
    name: str


@dataclass
class LinkMap:
    version: str = "2"
    objects: List[Loaded] = field(default_factory=list)
    drops: List[str] = field(default_factory=list)
    places: List[Place] = field(default_factory=list)
    commons: List[Common] = field(default_factory=list)
    got: Optional[Tuple[int, int]] = None
    slots: List[Slot] = field(default_factory=list)
    names: List[Name] = field(default_factory=list)


def unescape(name: str) -> str:
    """The name that a map spells."""
    raw = re.sub(rb"\\x(..)", lambda found: bytes([int(found[1], 16)]), name.encode())
    return raw.decode(errors="surrogateescape")


def read(text: str) -> LinkMap:
    """The map of a text that `ld` wrote. A `symtab` line is left out."""
    found = LinkMap()
    for line in text.split("\n"):
        word, _, rest = line.partition(" ")
        part = rest.split(" ")
        if word == "ldmap":
            found.version = rest
        elif word == "object":
            found.objects.append(Loaded(int(part[1]), int(part[2]), unescape(part[3])))
        elif word == "drop":
            found.drops.append(line)
        elif word == "place":
            found.places.append(Place(int(part[0], 16), int(part[1]), int(part[2]), int(part[3]), part[4]))
        elif word == "common":
            found.commons.append(Common(int(part[0], 16), int(part[1]), int(part[2]), part[3]))
        elif word == "got":
            found.got = (int(part[0], 16), int(part[1]))
        elif word == "slot":
            found.slots.append(Slot(int(part[0], 16), part[1], tuple(part[2:])))
        elif word == "symbol":
            found.names.append(Name(int(part[0], 16), tuple(part[1:-1]), part[-1]))
    return found


def escape(name: str) -> str:
    """The spelling of a path in a map."""
    raw = name.encode(errors="surrogateescape")
    return "".join(chr(c) if 0x21 <= c <= 0x7E and c != 0x5C else f"\\x{c:02x}" for c in raw)


def write(shown: LinkMap) -> str:
    """The text of a map."""
    lines = [f"ldmap {shown.version}"]
    lines += [f"object {k} {it.item} {it.offset} {escape(it.path)}" for k, it in enumerate(shown.objects)]
    lines += shown.drops
    lines += [f"place {it.address:016x} {it.size} {it.owner} {it.section} {it.name}" for it in shown.places]
    lines += [f"common {it.address:016x} {it.size} {it.align} {it.name}" for it in shown.commons]
    if shown.got:
        lines.append(f"got {shown.got[0]:016x} {shown.got[1]}")
    slots = sorted(shown.slots, key=lambda slot: slot.address)
    lines += [f"slot {it.address:016x} {it.what} {' '.join(it.target)}" for it in slots]
    lines += [f"symbol {it.address % 2**64:016x} {' '.join(it.meaning)} {it.name}" for it in shown.names]
    return "\n".join(lines + ["end", ""])
