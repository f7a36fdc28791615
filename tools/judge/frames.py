"""Finds where a linker put the call frames that it edited (.eh_frame, LSB 10.6): of each record that describes a function the one in
the image that describes the same address and size, and of its common part the one to which that record points. Nothing here needs trust: of
a wrong place `ld-judge` says no."""

import struct
from typing import Dict, Iterator, List, NamedTuple, Optional, Tuple

import elf
import linkmap
from merged import Key, Line
from skeleton import Skeleton

# Widths of pointers by the low half of their encoding; those below 8 have no sign.
WIDTHS = {0: 8, 2: 2, 3: 4, 4: 8, 10: 2, 11: 4, 12: 8}


class Record(NamedTuple):
    """A record: its place, its size with the length in front, and the place of its common part, None where it is one."""

    offset: int
    size: int
    common: Optional[int]


class Stretch(NamedTuple):
    """The image's list of records: where it is, and its bytes."""

    address: int
    data: bytes


def records(data: bytes) -> List[Record]:
    """The records up to the zero that ends them, or up to one that isn't whole."""
    found: List[Record] = []
    at = 0
    while at + 8 <= len(data):
        length, number = struct.unpack_from("<II", data, at)
        if length < 4 or at + 4 + length > len(data):
            break
        found.append(Record(at, 4 + length, at + 4 - number if number else None))
        at += 4 + length
    return found


def number(data: bytes, at: int) -> Tuple[int, int]:
    """An unsigned number in LEB128, and what is behind it."""
    value = shift = 0
    while True:
        byte = data[at]
        value |= (byte & 0x7F) << shift
        at, shift = at + 1, shift + 7
        if byte < 0x80:
            return value, at


def encoding(data: bytes, common: int) -> int:
    """How a common part's records encode addresses."""
    end = data.index(0, common + 9)
    letters = data[common + 9 : end].decode("latin-1")
    if not letters.startswith("z"):
        return 0
    _, at = number(data, end + 1)
    _, at = number(data, at)
    _, at = (0, at + 1) if data[common + 8] == 1 else number(data, at)
    _, at = number(data, at)
    for letter in letters[1:]:
        if letter == "R":
            return data[at]
        at += 1 + WIDTHS.get(data[at] & 15, 0) if letter == "P" else 1 if letter == "L" else 0
    return 0


def sized(data: bytes, record: Record) -> Optional[int]:
    """The size of what a record describes, which follows the address and is as wide."""
    width, at = WIDTHS.get(encoding(data, record.common or 0) & 15), record.offset + 8
    return int.from_bytes(data[at + width : at + 2 * width], "little") if width else None


def described(stretch: Stretch, record: Record) -> Optional[Tuple[int, int]]:
    """The address that a record of the image describes, and the size."""
    form, size = encoding(stretch.data, record.common or 0), sized(stretch.data, record)
    width, at = WIDTHS.get(form & 15), record.offset + 8
    if width is None or size is None or form & 0x70 not in (0, 0x10):
        return None
    value = int.from_bytes(stretch.data[at : at + width], "little", signed=form & 15 > 8 or form & 15 == 0)
    return (value + (stretch.address + at if form & 0x70 else 0)) % 2**64, size


def frames_of(image: elf.Image) -> Optional[Stretch]:
    """The image's list of records."""
    for section in elf.section_table(image.data):
        if section.name == ".eh_frame" and section.flags & elf.ALLOC:
            return Stretch(section.address, image.memory(section.address, section.size))
    return None


def edited(link: Skeleton, places: Dict[Key, linkmap.Place]) -> Iterator[Tuple[Key, bytes]]:
    """The sections of frames that are kept and have no place."""
    dropped = {tuple(int(part) for part in line.split()[1:]) for line in link.map.drops}
    for owner, it in enumerate(link.objects):
        for section, header in enumerate(it.sections):
            key = (owner, section)
            if header.name == ".eh_frame" and header.flags & elf.ALLOC and key not in places and key not in dropped:
                yield key, it.content(section)


def named(link: Skeleton, places: Dict[Key, linkmap.Place], owner: int, entry: elf.Relocation) -> Optional[int]:
    """The value of the symbol that a relocation of an object names, where that is in a section that has a place."""
    symbol = link.objects[owner].symbols[entry.symbol]
    place = places.get((owner, symbol.section))
    return (place.address + symbol.value) if place and symbol.section else None


def frame_lines(link: Skeleton, stretch: Stretch, places: Dict[Key, linkmap.Place]) -> List[Line]:
    """The lines of all records that are found, in order."""
    there: Dict[Tuple[int, Optional[int]], List[Record]] = {}
    for record in records(stretch.data):
        found_at = described(stretch, record) if record.common is not None else None
        if found_at is not None:
            there.setdefault(found_at, []).append(record)
    found: Dict[Tuple[Key, int], Line] = {}
    for key, data in edited(link, places):
        own = {record.offset: record for record in records(data)}
        entries = {entry.offset: entry for entry in link.objects[key[0]].relocations() if entry.section == key[1]}
        for record in own.values():
            entry = entries.get(record.offset + 8)
            value = named(link, places, key[0], entry) if entry and record.common is not None else None
            key_of = ((value + entry.addend) % 2**64, sized(data, record)) if value is not None and entry else None
            if key_of not in there:
                continue
            same = there[key_of]
            other = same.pop(0) if len(same) > 1 else same[0]
            for mine, at in ((record, other.offset), (own.get(record.common), other.common)):
                if mine and at is not None:
                    found.setdefault((key, mine.offset), Line(*key, mine.offset, mine.size, stretch.address + at))
    return sorted(found.values())


def tables(image: elf.Image) -> List[Line]:
    """Where the tables of the list are that the headers tell."""
    return [Line(0, 0, 0, it.memory_size, it.address) for it in image.segments if it.kind == elf.PT_GNU_EH_FRAME]


def put_frames(link: Skeleton, image: elf.Image, places: Dict[Key, linkmap.Place]) -> Tuple[Optional[Stretch], List[Line]]:
    """The list of records, where the linker made one, and the lines of all records that are found in it."""
    made = any(any(data) or (data and tables(image)) for _, data in edited(link, places))
    stretch = frames_of(image) if made else None
    return (stretch, frame_lines(link, stretch, places)) if stretch else (None, [])
