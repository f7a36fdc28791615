"""Finds where a linker put the strings and constants that it merged (SHF_MERGE): by the fields that tell their addresses, and those
that no field names by their bytes. Nothing here needs trust: of a wrong place `ld-judge` says no."""

from bisect import bisect_right
from math import gcd
from typing import Dict, Iterator, List, NamedTuple, Optional, Set, Tuple

import elf
import linkmap
from skeleton import Skeleton

Key = Tuple[int, int]
# The kinds whose formula is S + A.
SUMS = (1, 10, 11)


class Line(NamedTuple):
    """Where a piece of a section is: object, section, offset, size, address."""

    owner: int
    section: int
    offset: int
    size: int
    address: int


class Pieces:
    """A section that was merged: its bytes, and where its strings or constants begin and how long they are."""

    def __init__(self, section: elf.Section, content: bytes):
        self.align = section.align
        self.content = content
        self.sizes = dict(pieces_in(section, content))
        self.offsets = sorted(self.sizes)

    def piece_at(self, offset: int) -> Optional[int]:
        """Where the piece begins that has a byte."""
        k = bisect_right(self.offsets, offset) - 1
        if k < 0 or offset >= self.offsets[k] + self.sizes[self.offsets[k]]:
            return None
        return self.offsets[k]

    def fits(self, offset: int, address: int) -> bool:
        """Whether a piece may be at an address."""
        return address % gcd(self.align, offset) == 0


def is_mergeable(section: elf.Section) -> bool:
    """Whether linkers may merge what a section has, and the judge knows how."""
    wanted = section.flags & (elf.ALLOC | elf.MERGE | elf.WRITE | elf.EXEC | elf.TLS) == elf.ALLOC | elf.MERGE
    named = f"{section.name}.".startswith((".rodata.", ".lrodata."))
    return wanted and named and section.entry_size > 0 and section.kind != elf.NOBITS


def pieces_in(section: elf.Section, content: bytes) -> Iterator[Tuple[int, int]]:
    """The offsets and sizes of a section's strings, with the zero that ends each, or of its constants."""
    unit = section.entry_size
    if not section.flags & elf.STRINGS:
        yield from ((at, unit) for at in range(0, len(content) - unit + 1, unit))
        return
    begin, zero = 0, bytes(unit)
    while begin < len(content):
        end = content.find(zero, begin)
        while end >= 0 and (end - begin) % unit:
            end = content.find(zero, end + 1)
        if end < 0:
            return
        yield begin, end + unit - begin
        begin = end + unit


def merged_sections(link: Skeleton, places: Dict[Key, linkmap.Place]) -> Dict[Key, Pieces]:
    """The sections that were merged: those that may be, are kept, and have no place."""
    dropped = {tuple(int(part) for part in line.split()[1:]) for line in link.map.drops}
    found: Dict[Key, Pieces] = {}
    for owner, it in enumerate(link.objects):
        changed = {entry.section for entry in it.relocations()}
        for number, section in enumerate(it.sections):
            key = (owner, number)
            if is_mergeable(section) and key not in places and key not in dropped and number not in changed:
                found[key] = Pieces(section, it.content(number))
    return found


def definitions(link: Skeleton, sections: Dict[Key, Pieces]) -> Dict[str, Tuple[Key, int]]:
    """The first definition of each name that isn't LOCAL in a section that was merged, and its offset there."""
    found: Dict[str, Tuple[Key, int]] = {}
    for owner, it in enumerate(link.objects):
        for symbol in it.symbols:
            if symbol.binding != elf.LOCAL and (owner, symbol.section) in sections:
                found.setdefault(symbol.name, ((owner, symbol.section), symbol.value))
    return found


def told_places(link: Skeleton, places: Dict[Key, linkmap.Place], sections: Dict[Key, Pieces], told) -> Iterator[Tuple[Key, int, int]]:
    """Of each field that names a byte of a section that was merged: the section, the byte's offset there, and its address.
    `told` says of a relocation in a place what its field tells of its symbol, None where it tells nothing."""
    named = definitions(link, sections)
    for owner, it in enumerate(link.objects):
        for entry in it.relocations():
            symbol, place = it.symbols[entry.symbol], places.get((owner, entry.section))
            key, offset = ((owner, symbol.section), symbol.value) if symbol.section else named.get(symbol.name, (None, 0))
            if not place or key not in sections:
                continue
            if symbol.section and not symbol.name:
                if entry.kind not in SUMS:
                    continue
                added = entry.addend
            else:
                added = 0
            value = told(it, place, entry)
            if value is not None:
                yield key, offset + added, (value + added) % 2**64


def explained(link: Skeleton, image: elf.Image, notes: List[Tuple[int, int]]) -> List[Tuple[int, int]]:
    """The stretches of memory that headers, sections, common blocks and notes have."""
    found = [(place.address, place.address + place.size) for place in link.map.places if place.size]
    found += [(common.address, common.address + common.size) for common in link.map.commons]
    found += [(address, address + size) for address, size in notes]
    for segment in image.segments:
        if segment.kind == elf.PT_LOAD and segment.offset == 0:
            found.append((segment.address, segment.address + 64 + 56 * len(image.segments)))
    return found


def gaps(image: elf.Image, taken: List[Tuple[int, int]]) -> Iterator[Tuple[int, bytes]]:
    """The stretches of read-only memory that nothing explains, with their bytes."""
    taken = sorted(taken)
    for segment in image.segments:
        if segment.kind != elf.PT_LOAD or segment.flags & 2:
            continue
        at, end = segment.address, segment.address + segment.file_size
        for begin, behind in taken + [(end, end)]:
            if at < min(begin, end) and begin >= segment.address:
                yield at, image.memory(at, min(begin, end) - at)
            at = max(at, behind) if behind <= end else at
            if begin >= end:
                break


class Unnamed:
    """The pieces that no field names, by their bytes."""

    def __init__(self, sections: Dict[Key, Pieces], known: Dict[Tuple[Key, int], Line]):
        self.found: Dict[bytes, List[Tuple[Key, int]]] = {}
        self.sections = sections
        self.units: Set[int] = set()
        for key, pieces in sections.items():
            for offset in pieces.offsets:
                if (key, offset) not in known:
                    piece = pieces.content[offset : offset + pieces.sizes[offset]]
                    self.found.setdefault(piece, []).append((key, offset))
                    self.units.add(len(piece))

    def take(self, piece: bytes, address: int) -> Optional[Line]:
        """A piece of these bytes that may be at an address; it isn't taken twice."""
        rest = self.found.get(piece, [])
        for k, (key, offset) in enumerate(rest):
            if self.sections[key].fits(offset, address):
                del rest[k]
                return Line(*key, offset, len(piece), address)
        return None

    def first_in(self, data: bytes, at: int, address: int) -> Optional[Line]:
        """The piece at a place of a gap: a string up to its zero, or a constant."""
        sizes = [16, 8, 4, 32]
        end = data.find(b"\0", at)
        if end >= 0:
            sizes.insert(0, end + 1 - at)
        for size in sizes:
            if size in self.units and at + size <= len(data):
                line = self.take(data[at : at + size], address)
                if line:
                    return line
        return None


def merged_lines(link: Skeleton, image: elf.Image, places: Dict[Key, linkmap.Place], notes: List[Tuple[int, int]], told) -> List[Line]:
    """The lines of all pieces that are found, in order."""
    sections = merged_sections(link, places)
    known: Dict[Tuple[Key, int], Line] = {}
    for key, offset, address in told_places(link, places, sections, told):
        pieces = sections[key]
        begin = pieces.piece_at(offset)
        if begin is not None:
            known.setdefault((key, begin), Line(*key, begin, pieces.sizes[begin], address - (offset - begin)))
    if not sections:
        return []
    unnamed = Unnamed(sections, known)
    lines = list(known.values())
    taken = explained(link, image, notes) + [(line.address, line.address + line.size) for line in lines]
    for address, data in gaps(image, taken):
        at = 0
        while at < len(data):
            line = unnamed.first_in(data, at, address + at) if data[at] else None
            if line:
                lines.append(line)
            at += line.size if line else 1
    return sorted(lines)


def areas_of(lines: List[Line]) -> List[Tuple[int, int]]:
    """The stretches that pieces have together, by address and size."""
    found: List[List[int]] = []
    for address, end in sorted((line.address, line.address + line.size) for line in lines):
        if found and address <= found[-1][1]:
            found[-1][1] = max(found[-1][1], end)
        else:
            found.append([address, end])
    return [(begin, end - begin) for begin, end in found]
