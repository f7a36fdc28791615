#!/usr/bin/env python3
"""Makes the certificate of a link that lld, GNU ld, gold or mold made, for `ld-judge`.

    tools/judge/certificate.py [--driven] IMAGE PEERMAP WORDS >CERTIFICATE

IMAGE and PEERMAP are that linker's image, with its symbols, and its map (-Map); WORDS are those of our `ld` for the same link,
which says which objects they load, and in which order, unless PEERMAP says it; with --driven they are the other linker's own. The
certificate is our map of these words with the addresses that PEERMAP and the image's symbols tell. In front it has a line `note ADDRESS
SIZE`, in decimal digits, for each note that the linker made, a line `area ADDRESS SIZE` for each area of merged strings and constants
and of call frames, `merged OBJECT SECTION OFFSET SIZE ADDRESS` for each string and constant, `frames ADDRESS SIZE` for the list of call
frames and `frame OBJECT SECTION OFFSET SIZE ADDRESS` for each record of these. It needs no trust: with a wrong one `ld-judge` says no.
LD_PROGRAM is our linker, where it isn't crates/ld/out/ld.
"""

import struct
import sys
from collections import deque
from pathlib import Path
from typing import Dict, Iterator, List, Optional, Set, Tuple

import elf
import frames
import linkmap
import merged
import order
import peers
from judge import by_numbers, part, put_commons, put_names, table_address, up
from skeleton import Skeleton, skeleton

PROPERTY = ".note.gnu.property"
GOT_NAME = "_GLOBAL_OFFSET_TABLE_"
# The names that linkers define, beside __start_N and __stop_N (docs/PROFILE.md).
LINKERS_NAMES = set(
    "_end end _edata edata _etext etext __bss_start __executable_start __ehdr_start __etext".split()
    + f"__init_array_start __init_array_end __fini_array_start __fini_array_end {GOT_NAME}".split()
    + "__preinit_array_start __preinit_array_end".split()
)


def merging(link: Skeleton, places: List[linkmap.Place]) -> Set[Tuple[int, int]]:
    """The sections among some that linkers may merge: none that relocations change."""
    changed = {(owner, entry.section) for owner, it in enumerate(link.objects) for entry in it.relocations()}
    keys = {(place.owner, place.section): link.section(place) for place in places}
    return {key for key, section in keys.items() if merged.is_mergeable(section) and key not in changed}


def without_merged(link: Skeleton, image: elf.Image, kept: List[linkmap.Place]) -> List[linkmap.Place]:
    """The places without those of sections that linkers may merge, unless each of these is at its own with its bytes."""
    keys = merging(link, link.map.places)
    plain = [place for place in kept if (place.owner, place.section) not in keys]
    others = [place for place in kept if (place.owner, place.section) in keys and place.size]
    own = [place for place in link.map.places if (place.owner, place.section) in keys and place.size]
    at = 0
    for place in sorted(others, key=lambda place: place.address):
        content = link.objects[place.owner].content(place.section)
        if place.address < at or content != image.memory(place.address, len(content)):
            return plain
        at = place.address + place.size
    return kept if len(others) == len(own) else plain


def add_frames(link: Skeleton, image: elf.Image, spots: peers.Spots) -> None:
    """Adds where call frames are that end a list and have nothing else: LLD and mold have no lines for any, and one list of their own.
    Where sections have records, or the linker made a table of these, it made one list of all, and none has a line."""
    ends = [place for place in link.map.places if link.section(place).name == ".eh_frame"]
    keys = [(link.labels[place.owner], ".eh_frame") for place in ends]
    address = dict(image.sections).get(".eh_frame")
    contents = [link.objects[place.owner].content(place.section) for place in ends]
    if any(any(content) for content in contents) or frames.tables(image):
        link.map.places = [place for place in link.map.places if link.section(place).name != ".eh_frame"]
        return
    if address is None or any(key in spots for key in keys):
        return
    if sum(1 for content in contents if content) <= 1:
        spots.update({key: deque([(address, place.size)]) for key, place in zip(keys, ends)})


def put_places(link: Skeleton, image: elf.Image, spots: peers.Spots, collects: bool) -> None:
    """Gives each section the address of the other linker's map. One that it has no line for, or one of another size, was edited and
    gets no line, nor does any one of strings and constants then; an empty one is at the end of the one before it of its kind, unless
    it may have been left out."""
    add_frames(link, image, spots)
    ends: Dict[Tuple[int, bool], int] = {}
    kept: List[linkmap.Place] = []
    for place in link.map.places:
        section = link.section(place)
        found = spots.get((link.labels[place.owner], section.name))
        if found:
            place.address, size = found.popleft()
            if size == place.size:
                ends[part(section)] = place.address + size
                kept.append(place)
        elif place.size == 0 and (not collects or stays(section)):
            place.address = up(ends.get(part(section), 0), section.align)
            kept.append(place)
    least = min((place.address for place in kept if place.address), default=0)
    for place in kept:
        place.address = place.address or up(least, link.section(place).align)
    link.map.places = without_merged(link, image, kept)


# The last of these words says whether the linker leaves out what nothing refers to.
COLLECTING = {"--gc-sections": True, "-gc-sections": True, "--no-gc-sections": False, "-no-gc-sections": False}
ARRAYS = (14, 15, 16)
ROOTS = (".init", ".fini", ".ctors", ".dtors", ".init_array", ".fini_array", ".preinit_array", ".eh_frame")


def stays(section: elf.Section) -> bool:
    """Whether --gc-sections keeps a section by its type or its name."""
    return section.kind in ARRAYS or any(section.name == root or section.name.startswith(root + ".") for root in ROOTS)


def put_drops(link: Skeleton, all_places: List[linkmap.Place]) -> None:
    """Leaves out the sections that have no line, where --gc-sections is among the words and the linker can't have edited them."""
    placed, edited = {(place.owner, place.section) for place in link.map.places}, merging(link, all_places)
    drops = [tuple(int(part) for part in line.split()[1:]) for line in link.map.drops]
    for place in all_places:
        key = (place.owner, place.section)
        if key not in placed and key not in edited and not stays(link.section(place)):
            drops.append(key)
    link.map.drops = [f"drop {owner} {section}" for owner, section in sorted(set(drops))]


def notes_in(image: elf.Image, segment: elf.Segment) -> Iterator[Tuple[int, int]]:
    """The addresses and sizes of the notes of a PT_NOTE: three numbers, a name and a description (System V gABI 5, "Note Section")."""
    at, end = segment.address, segment.address + segment.file_size
    align = 8 if segment.align == 8 else 4
    while at + 12 <= end:
        name, size, _ = struct.unpack("<3I", image.memory(at, 12))
        whole = -(-(12 + name) // align) * align + -(-size // align) * align
        yield at, min(whole, end - at)
        at += whole


def made_notes(link: Skeleton, image: elf.Image) -> List[Tuple[int, int]]:
    """The notes that are no section of an input."""
    own = {place.address for place in link.map.places if place.size}
    found = {note for segment in image.segments if segment.kind == elf.PT_NOTE for note in notes_in(image, segment)}
    return sorted(note for note in found if note[0] not in own)


def add_linkers_names(link: Skeleton, image: elf.Image) -> None:
    """Adds the names that the linker defined and no object asks for, which the image's symbol table has."""
    known = {linkmap.unescape(name.name) for name in link.map.names}
    for name, value in image.values.items():
        if name not in known and (name in LINKERS_NAMES or name.startswith(("__start_", "__stop_"))):
            link.map.names.append(linkmap.Name(value, ("linker",), linkmap.escape(name)))
    link.map.names.sort(key=lambda name: linkmap.unescape(name.name).encode(errors="surrogateescape"))


# Relocations whose field tells its symbol's value, that of a slot, or the address of the table of slots: the bytes of the field,
# whether it is signed, and whether it is counted from the field.
TELLING = {1: (8, False, False), 2: (4, True, True), 4: (4, True, True), 10: (4, False, False), 11: (4, True, False), 24: (8, True, True)}
SLOTTED = {9: (4, True, True), 41: (4, True, True), 42: (4, True, True)}
TABLED = {26: (4, True, True), 29: (8, True, True)}


def field_value(image: elf.Image, place: linkmap.Place, entry: elf.Relocation, form: Tuple[int, bool, bool]) -> int:
    """What a field in the image tells: the formula's value without its addend and its place."""
    width, signed, relative = form
    address = place.address + entry.offset
    field = int.from_bytes(image.memory(address, width), "little", signed=signed)
    return (field - entry.addend + (address if relative else 0)) % 2**64


def told_by_slot(it: elf.ObjectFile, image: elf.Image, place: linkmap.Place, entry: elf.Relocation) -> Optional[int]:
    """What the field of a relocation to a slot tells of its name: the slot's value; or, where the linker has put lea or mov of the
    address in place of the load (AMD64 psABI B.2), that address. None where it put something else there."""
    before = it.content(entry.section)[max(entry.offset - 2, 0) : entry.offset]
    after = image.memory(place.address + max(entry.offset - 2, 0), len(before))
    if after == before:
        return int.from_bytes(image.memory(field_value(image, place, entry, SLOTTED[entry.kind]), 8), "little")
    if after[:1] == b"\x8d":
        return field_value(image, place, entry, SLOTTED[entry.kind])
    if after[:1] == b"\xc7":
        return int.from_bytes(image.memory(place.address + entry.offset, 4), "little", signed=True) % 2**64
    return None


def told_by(it: elf.ObjectFile, image: elf.Image, place: linkmap.Place, entry: elf.Relocation) -> Optional[int]:
    """What the field of a relocation tells of its symbol's value; None where it tells nothing of it."""
    if entry.kind in TELLING:
        return field_value(image, place, entry, TELLING[entry.kind])
    if entry.kind in SLOTTED:
        return told_by_slot(it, image, place, entry)
    return None


def told_by_fields(link: Skeleton, image: elf.Image) -> Dict[str, int]:
    """The values that fields in the image tell of names that aren't LOCAL, and of the table of slots: of each the first that does."""
    places = by_numbers(link)
    told: Dict[str, int] = {}
    for owner, it in enumerate(link.objects):
        for entry in it.relocations():
            symbol, place = it.symbols[entry.symbol], places.get((owner, entry.section))
            if not place:
                continue
            if entry.kind in TABLED:
                told.setdefault(GOT_NAME, field_value(image, place, entry, TABLED[entry.kind]))
            elif symbol.binding != elf.LOCAL and symbol.name not in told:
                value = told_by(it, image, place, entry)
                if value is not None:
                    told[symbol.name] = value
    return told


# Words of other linkers that our `ld` refuses, and that say nothing of which objects are loaded: where sections are, which rights
# segments have, and what an image has beside them.
REFUSED = ("-N", "--omagic", "-q", "--emit-relocs")
REFUSED_FRONTS = ("-Ttext=", "-Tdata=", "-Tbss=", "--section-start=")


def loading(words: List[str]) -> List[str]:
    """The words that our `ld` is given, which says which objects a link loads."""
    kept: List[str] = []
    for word in words:
        if word == "execstack" and kept[-1:] == ["-z"]:
            kept.pop()
        elif word not in REFUSED and not word.startswith(REFUSED_FRONTS):
            kept.append(word)
    return kept


def certificate(image_path: str, peer_path: str, words: List[str], driven: bool) -> str:
    link = skeleton(loading(words) if driven else words, driven)
    data = Path(image_path).read_bytes()
    if not data.startswith(b"\x7fELF\x02\x01"):
        sys.exit(f"certificate.py: {image_path} is no ELF-64 image")
    image = elf.Image(data)
    link.map.places = [place for place in link.map.places if link.section(place).name != PROPERTY]
    peer_map = Path(peer_path).read_text(errors="surrogateescape")
    order.put_order(link, peer_map)
    all_places = link.map.places
    collects = [COLLECTING[word] for word in words if word in COLLECTING][-1:] == [True]
    put_places(link, image, peers.read(peer_map), collects)
    if collects:
        put_drops(link, all_places)
    # An image without a symbol table tells by its fields what names are.
    image.values = {**told_by_fields(link, image), **image.values}
    put_commons(link, image)
    put_names(link, image, by_numbers(link))
    add_linkers_names(link, image)
    got = image.values.get(GOT_NAME) or table_address(image)
    link.map.got = (got, 8) if got else None
    link.map.slots = []
    notes = made_notes(link, image)
    lines = merged.merged_lines(link, image, by_numbers(link), notes, lambda it, place, entry: told_by(it, image, place, entry))
    listed, records = frames.put_frames(link, image, by_numbers(link))
    stretches = [merged.Line(0, 0, 0, len(listed.data), listed.address)] if listed else []
    front = [f"note {address} {size}" for address, size in notes]
    front += [f"area {address} {size}" for address, size in merged.areas_of(lines + stretches + frames.tables(image))]
    front += [f"merged {line.owner} {line.section} {line.offset} {line.size} {line.address}" for line in lines]
    front += [f"frames {line.address} {line.size}" for line in stretches]
    front += [f"frame {line.owner} {line.section} {line.offset} {line.size} {line.address}" for line in records]
    return "".join(f"{line}\n" for line in front) + linkmap.write(link.map)


def main() -> int:
    driven = sys.argv[1:2] == ["--driven"]
    given = sys.argv[2:] if driven else sys.argv[1:]
    if len(given) < 3:
        sys.exit("usage: certificate.py [--driven] IMAGE PEERMAP WORDS")
    sys.stdout.write(certificate(given[0], given[1], given[2:], driven))
    return 0


if __name__ == "__main__":
    try:
        sys.exit(main())
    except OSError as error:
        sys.exit(f"certificate.py: {error}")
    except (struct.error, IndexError, ValueError, OverflowError) as error:
        sys.exit(f"certificate.py: the image or the map can't be read: {error}")
