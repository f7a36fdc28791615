"""Reads relocatable ELF-64 objects, members of ar archives, and the segments and symbols of images, and writes objects for
x86-64 and archives with an index, quicker than by as and ar. It takes what it reads as good: what is not, `ld` refuses
before."""

import struct
from typing import Dict, Iterator, List, NamedTuple, Tuple

PROGBITS, SYMTAB, STRTAB, RELA, NOBITS, INIT_ARRAY, GROUP = 1, 2, 3, 4, 8, 14, 17
WRITE, ALLOC, EXEC, MERGE, STRINGS, IN_GROUP, TLS = 1, 2, 4, 0x10, 0x20, 0x200, 0x400
PT_LOAD, PT_NOTE, PT_TLS, PT_GNU_EH_FRAME, PT_GNU_STACK = 1, 4, 7, 0x6474E550, 0x6474E551
LOCAL, GLOBAL, WEAK = 0, 1, 2
THREAD_LOCAL = 6
UNDEFINED, ABSOLUTE, COMMON = 0, 0xFFF1, 0xFFF2
ABS64, PC32, PLT32, GOTPCREL, GOTTPOFF, TPOFF32, REX_GOTPCRELX = 1, 2, 4, 9, 22, 23, 42


class Section(NamedTuple):
    name: str
    kind: int
    flags: int
    address: int
    offset: int
    size: int
    link: int
    info: int
    align: int
    entry_size: int


class Symbol(NamedTuple):
    name: str
    binding: int
    section: int
    value: int


class Relocation(NamedTuple):
    section: int
    offset: int
    kind: int
    symbol: int
    addend: int


def text(data: bytes, at: int) -> str:
    """The text from a place to its NUL. Bytes that are not UTF-8 survive."""
    return data[at : data.index(0, at)].decode(errors="surrogateescape")


def section_table(data: bytes) -> List[Section]:
    """The section headers of an object or an image, with their names."""
    start, size, count, names = struct.unpack_from("<Q", data, 40) + struct.unpack_from("<HHH", data, 58)
    raw = [struct.unpack_from("<IIQQQQIIQQ", data, start + size * k) for k in range(count)]
    return [
        Section(text(data, raw[names][4] + row[0]), row[1], row[2], row[3], row[4], row[5], row[6], row[7], row[8] or 1, row[9])
        for row in raw
    ]


def symbol_table(data: bytes, sections: List[Section]) -> List[Symbol]:
    """All symbols, by their numbers; none without a symbol table."""
    for section in sections:
        if section.kind == SYMTAB:
            names = sections[section.link].offset
            rows = struct.iter_unpack("<IBBHQQ", data[section.offset : section.offset + section.size])
            return [Symbol(text(data, names + row[0]), row[1] >> 4, row[3], row[4]) for row in rows]
    return []


class ObjectFile:
    """An object that is there: its bytes, sections and symbols."""

    def __init__(self, data: bytes):
        self.data = data
        self.sections = section_table(data)
        self.symbols = symbol_table(data, self.sections)

    def content(self, number: int) -> bytes:
        """The bytes of a section; zeros where the file has none."""
        section = self.sections[number]
        if section.kind == NOBITS:
            return bytes(section.size)
        return self.data[section.offset : section.offset + section.size]

    def relocations(self) -> Iterator[Relocation]:
        for section in self.sections:
            if section.kind == RELA:
                body = self.data[section.offset : section.offset + section.size]
                for offset, info, addend in struct.iter_unpack("<QQq", body):
                    yield Relocation(section.info, offset, info & 0xFFFFFFFF, info >> 32, addend)


def archive_name(data: bytes, field: str) -> str:
    """The name that a member's header spells: its own, or one in the member of long names."""
    if not field.startswith("/"):
        return field.rstrip("/")
    at = 8
    while data[at : at + 2] != b"//":
        size = int(data[at + 48 : at + 58])
        at += 60 + size + size % 2
    begin = at + 60 + int(field[1:])
    return data[begin : data.index(b"/\n", begin)].decode(errors="surrogateescape")


def member(data: bytes, offset: int) -> Tuple[str, bytes]:
    """Name and bytes of the member whose header is at an offset."""
    size = int(data[offset + 48 : offset + 58])
    field = data[offset : offset + 16].decode(errors="surrogateescape").rstrip()
    return archive_name(data, field), data[offset + 60 : offset + 60 + size]


class Segment(NamedTuple):
    at: int
    kind: int
    flags: int
    offset: int
    address: int
    physical: int
    file_size: int
    memory_size: int
    align: int


class Image:
    """An image: its bytes, program headers, and the values of its symbols by name, where it has any."""

    def __init__(self, data: bytes):
        self.data = data
        start, size, count = struct.unpack_from("<Q", data, 32) + struct.unpack_from("<HH", data, 54)
        places = [start + size * k for k in range(count)]
        rows = [(at, struct.unpack_from("<IIQQQQQQ", data, at)) for at in places]
        self.segments = [Segment(at, *row) for at, row in rows]
        self.values: Dict[str, int] = {}
        sections = section_table(data)
        self.sections = [(section.name, section.address) for section in sections]
        for symbol in sorted(symbol_table(data, sections), key=lambda symbol: symbol.binding != LOCAL):
            if symbol.section != UNDEFINED:
                self.values[symbol.name] = symbol.value

    def memory(self, address: int, size: int) -> bytes:
        """Bytes of memory in one segment; none where no segment has them."""
        for segment in self.segments:
            inside = address - segment.address
            if segment.kind == PT_LOAD and 0 <= inside and inside + size <= segment.memory_size:
                begin = segment.offset + inside
                part = self.data[begin : max(begin, min(begin + size, segment.offset + segment.file_size))]
                return part + bytes(size - len(part))
        return b""

    def file_end(self) -> int:
        """Where the last file part of a PT_LOAD ends."""
        return max(part.offset + part.file_size for part in self.segments if part.kind == PT_LOAD)


class Strings:
    """A string table: names, each with its NUL, and the place of each."""

    def __init__(self):
        self.data = bytearray(b"\0")

    def add(self, name):
        place = len(self.data)
        self.data += name.encode(errors="surrogateescape") + b"\0"
        return place


class Object:
    """An object that is being made. Sections go by number, from 1 on; symbols too."""

    def __init__(self):
        self.sections = []
        self.symbols = []

    def section(self, name, sh_type, flags, data, align=1, info=0, size=None):
        self.sections.append((name, sh_type, flags, bytes(data), align, info, size))
        return len(self.sections)

    def symbol(self, name, section, binding=GLOBAL, value=0, kind=0, size=0):
        """A symbol of a section, or of none (0)."""
        self.symbols.append((name, section, binding << 4 | kind, value, size))
        return len(self.symbols)

    def relocations(self, section, entries, flags=0):
        """Relocations of a section: offset, type, symbol, addend."""
        data = b"".join(struct.pack("<QQq", at, symbol << 32 | kind, addend) for at, kind, symbol, addend in entries)
        return self.section(".rela", RELA, flags, data, 8, section)

    def bytes(self):
        """The object file. Its last three sections are the symbols, their names and the sections' names."""
        table = len(self.sections) + 1
        names = Strings()
        entries = bytearray(24)
        for name, section, info, value, size in self.symbols:
            entries += struct.pack("<IBBHQQ", names.add(name), info, 0, section, value, size)
        rows = self.sections + [
            (".symtab", SYMTAB, 0, bytes(entries), 8, 1, None),
            (".strtab", STRTAB, 0, bytes(names.data), 1, 0, None),
        ]
        section_names = Strings()
        places = [section_names.add(row[0]) for row in rows] + [section_names.add(".shstrtab")]
        rows.append((".shstrtab", STRTAB, 0, bytes(section_names.data), 1, 0, None))
        return file_of(rows, places, table)


def file_of(rows, places, table):
    """The object file of sections, of which the last one names all, at places of it; the symbol table has a number. A section's bytes
    may be at any offset, so a large alignment leaves no large gap."""
    body, headers = bytearray(), bytearray(64)
    for place, (_, sh_type, flags, data, align, info, size) in zip(places, rows):
        body += bytes(-len(body) % min(align, 16))
        link = {SYMTAB: table + 1, RELA: table, GROUP: table}.get(sh_type, 0)
        entry_size = {SYMTAB: 24, RELA: 24, GROUP: 4}.get(sh_type, 0)
        length = len(data) if size is None else size
        headers += struct.pack("<IIQQQQIIQQ", place, sh_type, flags, 0, 64 + len(body), length, link, info, align, entry_size)
        body += data
    body += bytes(-len(body) % 8)
    ident = b"\x7fELF\x02\x01\x01" + bytes(9)
    header = ident + struct.pack("<HHIQQQIHHHHHH", 1, 62, 1, 0, 0, 64 + len(body), 0, 64, 0, 0, 64, len(rows) + 1, len(rows))
    return header + bytes(body) + bytes(headers)


def member_header(name, size):
    return f"{name:<16}{0:<12}{0:<6}{0:<6}{644:<8}{size:<10}`\n".encode()


def archive(members):
    """An archive of members, each the names that the index has for it and its object."""
    names = b"".join(name.encode(errors="surrogateescape") + b"\0" for listed, _ in members for name in listed)
    count = sum(len(listed) for listed, _ in members)
    size = 4 + 4 * count + len(names)
    at = 8 + 60 + size + size % 2
    offsets, body = [], bytearray()
    for listed, data in members:
        offsets += [at + len(body)] * len(listed)
        body += member_header("m.o/", len(data)) + data + b"\n" * (len(data) % 2)
    index = struct.pack(f">I{count}I", count, *offsets) + names
    return b"!<arch>\n" + member_header("/", size) + index + b"\n" * (size % 2) + bytes(body)
