"""Where an image is wrong, in other linkers' words: what `ld-judge` says by numbers is told by an object's label, the name of its
section, the offset there, and the relocation's type and symbol."""

import re
from typing import Dict, List, Optional

import elf
import linkmap
import skeleton

# AMD64 psABI 4.4, "Relocation Types".
KINDS = dict(
    enumerate(
        "NONE 64 PC32 GOT32 PLT32 COPY GLOB_DAT JUMP_SLOT RELATIVE GOTPCREL 32 32S 16 PC16 8 PC8 DTPMOD64 DTPOFF64 TPOFF64 TLSGD TLSLD "
        "DTPOFF32 GOTTPOFF TPOFF32 PC64 GOTOFF64 GOTPC32 GOT64 GOTPCREL64 GOTPC64 GOTPLT64 PLTOFF64 SIZE32 SIZE64".split()
    )
)
KINDS.update({41: "GOTPCRELX", 42: "REX_GOTPCRELX"})

PLACE = re.compile(r"^  object ([0-9]+), section ([0-9]+)(?:, offset ([0-9]+): the field of a relocation of type ([0-9]+))?")


def loaded(lines: List[str]) -> Dict[int, linkmap.Loaded]:
    """The objects of a certificate, by their numbers."""
    rows = [line.split(" ", 4) for line in lines if line.startswith("object ")]
    return {int(row[1]): linkmap.Loaded(int(row[2]), int(row[3]), row[4]) for row in rows if len(row) == 5}


def symbol_at(it: elf.ObjectFile, section: int, offset: int, kind: int) -> str:
    """What the relocation of a type at an offset of a section refers to: the name of its symbol, or of that symbol's section."""
    for entry in it.relocations():
        if (entry.section, entry.offset, entry.kind) == (section, offset, kind):
            symbol = it.symbols[entry.symbol]
            return symbol.name or it.sections[symbol.section].name
    return ""


def told_of(found: "re.Match[str]", object_line: linkmap.Loaded) -> str:
    """A place of an object that can be opened."""
    label, it = skeleton.opened(object_line)
    section = it.sections[int(found[2])]
    if not found[3]:
        return f"  {label}:({section.name}): other bytes than the object's, beside the fields of relocations"
    offset, kind = int(found[3]), int(found[4])
    name = symbol_at(it, int(found[2]), offset, kind)
    return f"  {label}:({section.name}+0x{offset:x}): the field of R_X86_64_{KINDS.get(kind, kind)} to {name} is another one"


def told(line: str, objects: Dict[int, linkmap.Loaded]) -> str:
    """A line of `ld-judge` with names in place of numbers; as it is where it has no place or the object can't be read."""
    found: "Optional[re.Match[str]]" = PLACE.match(line)
    if not found or int(found[1]) not in objects:
        return line
    try:
        return told_of(found, objects[int(found[1])])
    except (OSError, ValueError, IndexError, LookupError):
        return line
