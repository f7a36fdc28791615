"""Says what a clause speaks of, and finds the first byte that fails it."""

import sys
from typing import Dict, List, Tuple

import elf
from skeleton import Skeleton

# The clauses that another linker's image may fail, and what is mostly the reason.
REASONS = {
    "C4": "the program headers: PT_LOADs of rights R, RX and RW, each at its address less the base in the file, then PT_TLS if "
    "there is one, then PT_GNU_STACK; GNU ld gives the first one no address where no section is read-only",
    "C5": "where sections stand: at multiples of their alignments, apart, and those of an output section one after the other; an "
    "edited section mostly fails here, as it is shorter than the object's",
    "C6": "the rights of the segment that a section stands in",
    "C7": "the global offset table: a first word of zeros, then one slot for each target, and no other. Linkers load thread-local "
    "variables without it, so objects for the model local-exec need no slot",
    "C8": "PT_TLS: its fields, and that no other section stands between thread-local ones",
    "C9": "values that don't fit their fields at these addresses",
    "C10": "the bytes of sections, which are the object's or a relocation's: no merged strings, edited notes, relaxed code",
    "C11": "fill: 0x90 between sections of code and 0 elsewhere; that nothing else is mapped, and no segment ends with fill",
    "C12": "the address of the entry",
    "C13": "the values of names",
}

# The bytes of fields, by types of relocations.
WIDTHS = {1: 8, 2: 4, 3: 4, 4: 4, 9: 4, 10: 4, 11: 4, 12: 2, 13: 2, 14: 1, 15: 1, 18: 8, 22: 4, 23: 4, 24: 8, 25: 8, 26: 4}
WIDTHS.update({27: 8, 28: 8, 29: 8, 32: 4, 33: 8, 41: 4, 42: 4})

# Those whose value is counted from the field.
RELATIVE = (2, 4, 13, 15, 24)


def note(line: str) -> None:
    print(f"judge: {line}", file=sys.stderr)


def note_some(lines: List[str]) -> None:
    """The first three of many."""
    for line in lines[:3]:
        note(line)
    if len(lines) > 3:
        note(f"and {len(lines) - 3} more like these")


def first_difference(link: Skeleton, image: elf.Image) -> None:
    """Tells the first piece with a byte outside all relocations that isn't the object's."""
    fields: Dict[Tuple[int, int], List[elf.Relocation]] = {}
    for owner, it in enumerate(link.objects):
        for entry in it.relocations():
            fields.setdefault((owner, entry.section), []).append(entry)
    for place in link.map.places:
        section = link.section(place)
        if section.flags & elf.TLS and section.kind == elf.NOBITS:
            continue
        wanted = bytearray(link.objects[place.owner].content(place.section))
        there = bytearray(image.memory(place.address, place.size).ljust(place.size, b"\0"))
        for entry in fields.get((place.owner, place.section), []):
            width = WIDTHS.get(entry.kind, 0)
            wanted[entry.offset : entry.offset + width] = there[entry.offset : entry.offset + width]
        if wanted != there:
            at = next(k for k in range(place.size) if wanted[k] != there[k])
            note(f"the first such byte is at {place.address + at:#x}, {at:#x} into {link.named(place)}")
            return
    note("all such bytes are in fields of relocations")
    first_dropped(link, image)


def first_dropped(link: Skeleton, image: elf.Image) -> None:
    """Tells the first field, of the frame of a dropped function, that hasn't the address 0 for it."""
    drops = {tuple(map(int, line.split(" ")[1:])) for line in link.map.drops}
    places = {(place.owner, place.section): place for place in link.map.places}
    for owner, it in enumerate(link.objects):
        for entry in it.relocations():
            place, symbol = places.get((owner, entry.section)), it.symbols[entry.symbol]
            if not place or symbol.binding != elf.LOCAL or (owner, symbol.section) not in drops:
                continue
            address, width = place.address + entry.offset, WIDTHS.get(entry.kind, 0)
            wanted = (entry.addend - (address if entry.kind in RELATIVE else 0)) % 2 ** (8 * width)
            if int.from_bytes(image.memory(address, width), "little") != wanted:
                note(f"the field at {address:#x}, {entry.offset:#x} into {link.named(place)}, is of a dropped function: by the")
                note(f"profile it has {wanted:#x}, A - P. -fno-asynchronous-unwind-tables, with -fno-exceptions in C++, leaves such frames out")
                return


def covered(link: Skeleton, image: elf.Image) -> List[Tuple[int, int]]:
    """The ranges of the headers, of the pieces that take up memory, and of the global offset table, by address."""
    first = image.segments[0].address
    ranges = [(first, first + 64 + 56 * len(image.segments))]
    for place in link.map.places:
        section = link.section(place)
        if place.size and not (section.flags & elf.TLS and section.kind == elf.NOBITS):
            ranges.append((place.address, place.address + place.size))
    ranges += [(it.address, it.address + it.size) for it in link.map.commons if it.size]
    if link.map.got:
        ranges.append((link.map.got[0], sum(link.map.got)))
    return sorted(ranges)


def first_stray(link: Skeleton, image: elf.Image) -> None:
    """Tells the first mapped byte outside all pieces that isn't fill, and segments that end with none of them."""
    ranges = covered(link, image)
    for segment in image.segments:
        if segment.kind != elf.PT_LOAD:
            continue
        fill = b"\x90" if segment.flags & 1 else b"\0"
        end = segment.address + segment.memory_size
        inside = [part for part in ranges if segment.address <= part[0] < end]
        at = segment.address
        for begin, stop in inside + [(end, end)]:
            gap = image.memory(at, begin - at) if begin > at else b""
            if gap.strip(fill):
                stray = at + len(gap) - len(gap.lstrip(fill))
                note(f"the byte at {stray:#x} is no fill; the piece before it ends at {at:#x}")
                return
            at = max(at, stop)
        file_end = segment.address + segment.file_size
        bytes_end = max([stop for _, stop in inside if stop <= file_end], default=segment.address)
        if bytes_end != file_end:
            note(f"the file part at {segment.address:#x} ends at {file_end:#x}, and its last piece at {bytes_end:#x}")
        if max(stop for _, stop in inside) != end:
            note(f"the segment at {segment.address:#x} ends at {end:#x}, and its last piece at {max(stop for _, stop in inside):#x}")


def explain(clause: str, link: Skeleton, image: elf.Image) -> None:
    """Notes for a `no`."""
    if clause in REASONS:
        note(f"{clause} is about {REASONS[clause]}")
    if clause == "C10":
        first_difference(link, image)
    elif clause == "C11":
        first_stray(link, image)
