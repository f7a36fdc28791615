#!/usr/bin/env python3
"""Has `ld --check` judge an image that lld or GNU ld made.

    tools/judge/judge.py IMAGE PEERMAP WORDS

IMAGE and PEERMAP are that linker's image, with its symbols, and its map; WORDS are those of our `ld` for the same link. The
map for the check is our own for these words, with the addresses that PEERMAP tells and the slots that the image tells. The
map needs no trust: with a wrong one the check says no. What is checked is a copy of the image, which ends with its last file
part and has no section headers; fields of its headers that docs/PROFILE.md fixes are set, and told. It runs as the image does.

It prints what the check says and, where that is no, what the clause speaks of. The exit status is that of the check.
`--keep FOLDER` as the first words leaves the copy there as `image`, and the map. LD_PROGRAM is our linker, where it isn't
crates/ld/out/ld.
"""

import struct
import sys
import tempfile
from pathlib import Path
from typing import Dict, Iterator, List, Tuple

import elf
import linkmap
import peers
from explain import explain, note, note_some
from skeleton import Skeleton, run, skeleton

# Relocations that ask for a slot, with the bytes of their fields and whether the value is counted from the field.
SLOTS = {3: (4, False), 9: (4, True), 22: (4, True), 27: (8, False), 28: (8, True), 41: (4, True), 42: (4, True)}
THREAD_SLOT = 22

Places = Dict[Tuple[int, int], linkmap.Place]


def up(address: int, align: int) -> int:
    return -(-address // align) * align


def part(section: elf.Section) -> Tuple[int, bool]:
    """What sections that may stand beside one another have in common."""
    return section.flags & (elf.WRITE | elf.EXEC | elf.TLS), section.kind == elf.NOBITS


def put_places(link: Skeleton, spots: peers.Spots) -> None:
    """Gives each piece the address of the other linker's map. An empty piece that it has no line for stands at the end of
    the one before it of its kind."""
    ends: Dict[Tuple[int, bool], int] = {}
    unplaced: List[linkmap.Place] = []
    told: List[str] = []
    for place in link.map.places:
        section = link.section(place)
        found = spots.get((link.labels[place.owner], section.name))
        if found:
            place.address, size = found.popleft()
            if size != place.size:
                told.append(f"{link.named(place)} has {size} bytes in the map, and {place.size} in the object")
            ends[part(section)] = place.address + place.size
        elif place.size == 0 and part(section) in ends:
            place.address = up(ends[part(section)], section.align)
        else:
            unplaced.append(place)
    put_rest(link, unplaced)
    note_some(told + [f"{link.named(place)} has no line in the map" for place in unplaced if place.size])


def put_rest(link: Skeleton, unplaced: List[linkmap.Place]) -> None:
    """Gives pieces without a line, and without one before them, the least address of a piece of their kind."""
    least = min(it.address for it in link.map.places)
    for place in unplaced:
        section = link.section(place)
        alike = [it.address for it in link.map.places if it.size and part(link.section(it)) == part(section)]
        place.address = up(min(alike, default=least), section.align)


def by_numbers(link: Skeleton) -> Places:
    return {(place.owner, place.section): place for place in link.map.places}


def put_commons(link: Skeleton, image: elf.Image) -> None:
    for common in link.map.commons:
        common.address = image.values.get(linkmap.unescape(common.name), 0)


def put_names(link: Skeleton, image: elf.Image, places: Places) -> None:
    """Gives each name its value: of a symbol by the address of its section, of the linker's by the image's symbols."""
    commons = {common.name: common.address for common in link.map.commons}
    for name in link.map.names:
        if name.meaning == ("common",):
            name.address = commons[name.name]
        elif name.meaning == ("linker",):
            name.address = image.values.get(linkmap.unescape(name.name), 0)
        else:
            owner, number = int(name.meaning[1]), int(name.meaning[2])
            symbol = link.objects[owner].symbols[number]
            place = places.get((owner, symbol.section))
            if place:
                name.address = place.address + symbol.value


def slot_requests(link: Skeleton) -> Iterator[Tuple[Tuple[str, ...], int, elf.Relocation]]:
    """Each relocation that asks for a slot, with what the slot stands for as a map's line has it, and its object."""
    for owner, it in enumerate(link.objects):
        for entry in it.relocations():
            if entry.kind in SLOTS:
                symbol = it.symbols[entry.symbol]
                what = "thread" if entry.kind == THREAD_SLOT else "value"
                local = symbol.binding == elf.LOCAL
                target = ("local", str(owner), str(entry.symbol)) if local else ("name", linkmap.escape(symbol.name))
                yield (what, *target), owner, entry


def slot_of(image: elf.Image, place: linkmap.Place, entry: elf.Relocation, got: int) -> int:
    """The address of the slot that a relocation's field in the image names."""
    width, relative = SLOTS[entry.kind]
    address = place.address + entry.offset
    value = int.from_bytes(image.memory(address, width), "little", signed=True)
    return value - entry.addend + (address if relative else got)


def put_slots(link: Skeleton, image: elf.Image, places: Places, got: int) -> None:
    """Gives the table its address and each slot that of the first relocation that asks for it. Without a line for the
    table, it begins eight bytes before its first slot."""
    if not link.map.got:
        return
    found: Dict[Tuple[str, ...], int] = {}
    for request, owner, entry in slot_requests(link):
        place = places.get((owner, entry.section))
        if place and request not in found:
            found[request] = slot_of(image, place, entry, got)
    for slot in link.map.slots:
        slot.address = found.get((slot.what, *slot.target), 0) % 2**64
    first = min((slot.address for slot in link.map.slots), default=got + 8)
    link.map.got = (got or max(first - 8, 0), link.map.got[1])


def table_address(image: elf.Image) -> int:
    """Where the section .got of the image stands; 0 without one."""
    for name, address in image.sections:
        if name == ".got":
            return address
    return 0


def set_field(copy: bytearray, at: int, form: str, value: int, name: str) -> None:
    """Sets a field of a header, and tells it where it was another."""
    before = struct.unpack_from(form, copy, at)[0]
    if before != value:
        note(f"in the copy {name} is {value:#x}, not {before:#x}")
        struct.pack_into(form, copy, at, value)


def thread_end(link: Skeleton) -> int:
    """The greatest end of thread-local pieces."""
    return max((it.address + it.size for it in link.map.places if link.section(it).flags & elf.TLS), default=0)


def bare(link: Skeleton, image: elf.Image) -> bytes:
    """The copy: to the end of the last file part, with the fields that docs/PROFILE.md fixes."""
    copy = bytearray(image.data[: image.file_end()])
    set_field(copy, 7, "<B", 0, "EI_OSABI")
    for at, form in ((40, "<Q"), (60, "<H"), (62, "<H")):
        struct.pack_into(form, copy, at, 0)
    set_field(copy, 58, "<H", 64, "e_shentsize")
    for segment in image.segments:
        if segment.kind == elf.PT_LOAD:
            set_field(copy, segment.at + 24, "<Q", segment.address, "p_paddr of a PT_LOAD")
            set_field(copy, segment.at + 48, "<Q", 4096, "p_align of a PT_LOAD")
        elif segment.kind == elf.PT_TLS:
            set_field(copy, segment.at + 24, "<Q", segment.address, "p_paddr of PT_TLS")
            set_field(copy, segment.at + 40, "<Q", thread_end(link) - segment.address, "p_memsz of PT_TLS")
        elif segment.kind == elf.PT_GNU_STACK:
            for at in range(8, 56, 8):
                set_field(copy, segment.at + at, "<Q", 0, "a field of PT_GNU_STACK")
    return bytes(copy)


def judge(image_path: str, peer_path: str, words: List[str], folder: Path) -> int:
    link = skeleton(words)
    data = Path(image_path).read_bytes()
    if not data.startswith(b"\x7fELF\x02\x01"):
        sys.exit(f"judge.py: {image_path} is no ELF-64 image")
    image = elf.Image(data)
    put_places(link, peers.read(Path(peer_path).read_text(errors="surrogateescape")))
    places = by_numbers(link)
    put_commons(link, image)
    put_names(link, image, places)
    put_slots(link, image, places, table_address(image))
    (folder / "image").write_bytes(bare(link, image))
    (folder / "map").write_text(linkmap.write(link.map), errors="surrogateescape")
    said = run(words + ["-s", "-o", f"{folder}/image", f"-Map={folder}/map", "--check"])
    clause = said.stdout.strip().partition(" ")[2]
    if clause == "C1":
        note(f"{image_path} wasn't linked by the script that link.py makes for these words: its sections don't make a map")
    else:
        print(said.stdout, end="")
        explain(clause, link, image)
    return said.returncode


def main() -> int:
    words = sys.argv[1:]
    if words[:1] == ["--keep"] and len(words) > 4:
        folder = Path(words[1])
        folder.mkdir(parents=True, exist_ok=True)
        return judge(words[2], words[3], words[4:], folder)
    if len(words) < 3:
        sys.exit("usage: judge.py [--keep FOLDER] IMAGE PEERMAP WORDS")
    with tempfile.TemporaryDirectory() as name:
        return judge(words[0], words[1], words[2:], Path(name))


if __name__ == "__main__":
    try:
        sys.exit(main())
    except OSError as error:
        sys.exit(f"judge.py: {error}")
    except (struct.error, IndexError, ValueError, OverflowError) as error:
        sys.exit(f"judge.py: the image or the map can't be read: {error}")
    except MemoryError:
        sys.exit("judge.py: there is no memory for a section of this size")
