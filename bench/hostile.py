#!/usr/bin/env python3
"""Measures the proved programs on inputs that nobody writes but to hurt, each of them also doubled.

    python3 bench/hostile.py [--only ld|ld-debug|ld-why] [--program PROGRAM] [--runs N] [--scale F] [INPUT..]

Each input is linked and checked by `ld`, then by `ld-debug`, then by `ld-why`; --only names one of them, and --program then is
that one, in place of the proved one.

    weak          one object with a million weak symbols of one name
    sections      65,000 sections of code in an object; doubled: two objects
    entries       an archive with one member and an index of a million entries, half of them of a name that is needed
    signatures    100,000 COMDAT groups of one signature, in objects of 20,000
    locals        a million LOCAL symbols whose names are ends of one text of 100 MB, and a relocation to each
    overlaps      a million GLOBAL symbols, ten in each text of 90 bytes: their names are ends of it
    directories   100,000 directories (-L), all but one of them not there, and one -l
    libraries     one directory and as many -l of one name
    map-objects   a map of a million lines `object`, for an image of one object
    map-slots     the same with lines `slot`
    map-symbols   the same with lines `symbol`
    segments      an image with 65,533 PT_LOADs, each of one page with a section of zeros; single: half of them
    wrong-zeros   a section of 4,000,000 MiB of zeros, and an image with a wrong byte of code
    group-names   a group of 2,000 archives, of which the first one's member asks for 80,000 names that none defines
    group-order   a group of 10,000 archives, each of which asks for the one before it: a round loads one
    flooded       16,000 symbols with slots, common symbols, signatures, output sections and names of an index each, whose
                  names collide where they are hashed from the seed that everybody knows
    local-slots   100,000 LOCAL symbols whose names are ends of one text of 10 MB, each with a slot of the GOT
    long-name     100,000 relocations, half of them for a slot, that name one weak symbol without a definition, whose name has
                  10 MB
    debug-name    100,000 relocations of debug data that name one such symbol
    debug-gaps    2,000 sections of debug data of one byte, each aligned to 2^21
    one-undefined 100,000 relocations that name one GLOBAL symbol without a definition, whose name has 1 MB
    lines         20 undefined names in code of which the last unit of a line table tells the line, in the last of 400,000 files;
                  before it are 20,000 units and one of 200,000 sequences, which tell of other code

Three more grow faster than their bytes, for reasons that docs/BENCHMARKS.md gives. They run only where they are named,
are small, and have no limit:

    weak-ends     5,000 weak symbols without a definition whose names are ends of one text of 500 kB
    undefined     the same with GLOBAL symbols, and a relocation to each
    products      400 directories, none of them there, and as many -l of names that only a last one has

All but the maps and `segments` are linked with a map, and the link is checked; `undefined`, `one-undefined` and `lines` are refused.
The maps, `segments` and `wrong-zeros` are only checked: their images and maps are made here, and have no tables for `ld-debug`. Time is that of the processor, in the program and in the system for it, memory the greatest
resident set, medians of the runs, in seconds and MiB; `by bytes` is memory by the bytes of all files that are read or
written, and of the words. The last two columns are the doubled input's time and memory by those of the single one:
linear is 2.

The exit status is 1 where an answer is another one, or memory grows more than 2.3 times, or time does where the double
takes half a second or more; 2 without the proved program or GNU time.
"""

import argparse
import os
import resource
import shutil
import statistics
import struct
import subprocess
import sys
import tempfile
from pathlib import Path

ROOT = Path(__file__).resolve().parent.parent
sys.path.insert(0, str(ROOT / "tools" / "judge"))

import elf  # noqa: E402

PROVED = {
    "ld": ROOT / "crates" / "ld" / "out" / "ld",
    "ld-debug": ROOT / "crates" / "ld_debug" / "out" / "ld_debug",
    "ld-why": ROOT / "crates" / "ld_why" / "out" / "ld_why",
}
GROWTH_LIMIT = 2.3
# Shorter times swing by more than the limit allows.
LEAST_SECONDS = 0.5
CODE = elf.ALLOC | elf.EXEC
DATA = elf.ALLOC | elf.WRITE

# exit(0) by a system call
EXIT = bytes.fromhex("b83c00000031ff0f05")


class Failed(Exception):
    """Another answer than the wanted one."""


class Step:
    """A run of a program: its name, its words, what `ld` must print, with which status, and the files it reads or writes."""

    def __init__(self, name, words, files, expect="", status=0):
        self.name = name
        self.words = [str(word) for word in words]
        self.files = files
        self.expect = expect
        self.status = status


def start(folder, undefined=()):
    """The object of `_start`, which may name others that it lacks."""
    made = elf.Object()
    made.symbol("_start", made.section(".text", elf.PROGBITS, CODE, EXIT), size=9)
    for name in undefined:
        made.symbol(name, 0)
    path = folder / "start.o"
    path.write_bytes(made.bytes())
    return path


def link_and_check(folder, words):
    """A link with a map, and its check."""
    image, text = folder / "image", folder / "map"
    files = [word for word in words if isinstance(word, Path)] + [image, text]
    line = ["-o", image, f"-Map={text}"] + words
    return [Step("link", line, files), Step("check", line + ["--check"], files, "yes\n")]


class Names(elf.Object):
    """An object whose symbols go by places in a string table that is given; each a place, section, binding, value."""

    def with_places(self, table, symbols):
        """The object file with these symbols, which are the section behind all others."""
        number = len(self.sections) + 1
        entries = bytearray(24)
        entries += b"".join(struct.pack("<IBBHQQ", at, info, 0, section, value, 0) for at, info, section, value in symbols)
        rows = self.sections + [
            (".symtab", elf.SYMTAB, 0, bytes(entries), 8, 1, None),
            (".strtab", elf.STRTAB, 0, table, 1, 0, None),
        ]
        names = elf.Strings()
        places = [names.add(row[0]) for row in rows] + [names.add(".shstrtab")]
        rows.append((".shstrtab", elf.STRTAB, 0, bytes(names.data), 1, 0, None))
        return elf.file_of(rows, places, number)


def weak_symbols(folder, count):
    made = Names()
    section = made.section(".text", elf.PROGBITS, CODE, b"\xc3")
    path = folder / "weak.o"
    path.write_bytes(made.with_places(b"\0name\0", [(1, elf.WEAK << 4, section, 0)] * count))
    return link_and_check(folder, [start(folder), path])


def many_sections(folder, count):
    words = [start(folder)]
    for first in range(0, count, 65_000):
        made = elf.Object()
        for k in range(first, min(first + 65_000, count)):
            made.section(f".text.{k}", elf.PROGBITS, CODE, b"\xc3", 4)
        words.append(folder / f"sections{first}.o")
        words[-1].write_bytes(made.bytes())
    return link_and_check(folder, words)


def index_entries(folder, count):
    """The name `needed` is asked for, and the member doesn't define it; so each of its entries stays asked for."""
    made = elf.Object()
    made.symbol("defined", made.section(".text", elf.PROGBITS, CODE, b"\xc3"))
    names = [f"name{k}" for k in range(count // 2)] + ["needed"] * (count - count // 2)
    path = folder / "libentries.a"
    path.write_bytes(elf.archive([(names, made.bytes())]))
    return link_and_check(folder, [start(folder), "-u", "needed", path])


def one_signature(folder, count):
    words = [start(folder)]
    for first in range(0, count, 20_000):
        made = elf.Object()
        for _ in range(min(20_000, count - first)):
            number = len(made.sections) + 1
            made.section(".group", elf.GROUP, 0, struct.pack("<II", 1, number + 1), 4, 1)
            made.section(".text.f", elf.PROGBITS, CODE | elf.IN_GROUP, b"\xc3")
        made.symbol("signature", 2, elf.WEAK)
        words.append(folder / f"groups{first}.o")
        words[-1].write_bytes(made.bytes())
    return link_and_check(folder, words)


def ends_of_one_text(count):
    """A string table of one text without a NUL inside, and places in it, 100 bytes apart."""
    return b"\0" + b"x" * (100 * count) + b"\0", [1 + 100 * k for k in range(count)]


def local_names(folder, count):
    made = Names()
    data = made.section(".data", elf.PROGBITS, DATA, bytes(8 * count), 8)
    made.relocations(data, [(8 * k, elf.ABS64, 1 + k, 0) for k in range(count)])
    table, places = ends_of_one_text(count)
    path = folder / "locals.o"
    path.write_bytes(made.with_places(table, [(at, 0, data, 0) for at in places]))
    return link_and_check(folder, [start(folder), path])


def local_slots(folder, count):
    made = Names()
    code = made.section(".text", elf.PROGBITS, CODE, bytes(4 * count))
    made.relocations(code, [(4 * k, elf.GOTPCREL, 1 + k, 0) for k in range(count)])
    table, places = ends_of_one_text(count)
    path = folder / "slots.o"
    path.write_bytes(made.with_places(table, [(at, 0, code, 0) for at in places]))
    return link_and_check(folder, [start(folder), path])


def long_name(folder, count):
    made = Names()
    data = made.section(".data", elf.PROGBITS, DATA, bytes(8 * count), 8)
    made.relocations(data, [(8 * k, elf.GOTPCREL if k % 2 else elf.ABS64, 1, 0) for k in range(count)])
    table, _ = ends_of_one_text(count)
    path = folder / "long.o"
    path.write_bytes(made.with_places(table, [(1, elf.WEAK << 4, 0, 0)]))
    return link_and_check(folder, [start(folder), path])


def refused(folder, words, line):
    """A link that is refused."""
    image = folder / "image"
    files = [word for word in words if isinstance(word, Path)]
    return [Step("link", ["-o", image] + words, files, line, 1)]


def debug_name(folder, count):
    made = Names()
    info = made.section(".debug_info", elf.PROGBITS, 0, bytes(8 * count), 1)
    made.relocations(info, [(8 * k, elf.ABS64, 1, 0) for k in range(count)])
    table, _ = ends_of_one_text(count)
    path = folder / "debug.o"
    path.write_bytes(made.with_places(table, [(1, elf.WEAK << 4, 0, 0)]))
    return link_and_check(folder, [start(folder), path])


def debug_gaps(folder, count):
    made = elf.Object()
    for _ in range(count):
        made.section(".debug_info", elf.PROGBITS, 0, b"\1", 1 << 21)
    path = folder / "gaps.o"
    path.write_bytes(made.bytes())
    return link_and_check(folder, [start(folder), path])


def undefined_ends(folder, count):
    made = Names()
    data = made.section(".data", elf.PROGBITS, DATA, bytes(8 * count), 8)
    made.relocations(data, [(8 * k, elf.ABS64, 1 + k, 0) for k in range(count)])
    table, places = ends_of_one_text(count)
    path = folder / "ends.o"
    path.write_bytes(made.with_places(table, [(at, elf.GLOBAL << 4, 0, 0) for at in places]))
    return refused(folder, [start(folder), path], None)


def one_undefined(folder, count):
    made = Names()
    data = made.section(".data", elf.PROGBITS, DATA, bytes(8 * count), 8)
    made.relocations(data, [(8 * k, elf.ABS64, 1, 0) for k in range(count)])
    path = folder / "name.o"
    path.write_bytes(made.with_places(b"\0" + b"n" * (10 * count) + b"\0", [(1, elf.GLOBAL << 4, 0, 0)]))
    return refused(folder, [start(folder), path], None)


def uleb(number):
    """An unsigned LEB128 number."""
    data = bytearray()
    while number >= 0x80:
        data.append(number & 0x7F | 0x80)
        number >>= 7
    return bytes(data) + bytes([number])


def line_unit(files, program):
    """A unit of a line table of version 5: no directories, so many files, and a program."""
    tables = bytes([0, 0, 1, 1, 8]) + uleb(files) + b"f\0" * files
    header = bytes([1, 1, 1, 0xFB, 14, 10, 0, 1, 1, 1, 1, 0, 0, 0, 1]) + tables
    unit = struct.pack("<HBBI", 5, 8, 0, len(header)) + header + program
    return struct.pack("<I", len(unit)) + unit


def line_tables(folder, count):
    made = elf.Object()
    code, other = (made.section(name, elf.PROGBITS, CODE, bytes(256)) for name in (".text", ".text.other"))
    entry, elsewhere = made.symbol("_start", code), made.symbol("other", other)
    names = [made.symbol(f"f{k}", 0) for k in range(20)]
    made.relocations(code, [(8 * k, elf.PC32, name, 0) for k, name in enumerate(names)])
    address = bytes([0, 9, 2]) + bytes(8)
    sequence = address + bytes([1, 2, 64, 0, 1, 1])
    last = address + b"\x04" + uleb(20 * count - 1) + bytes([1, 2]) + uleb(256) + bytes([0, 1, 1])
    small, large, told = line_unit(2, sequence), line_unit(2, sequence * (10 * count)), line_unit(20 * count, last)
    behind = len(small) - len(sequence) + len(address) - 8
    places = [len(small) * k + behind for k in range(count)]
    places += [len(small) * count + behind + len(sequence) * k for k in range(10 * count)]
    fields = [(at, elf.ABS64, elsewhere, 0) for at in places]
    fields.append((len(small) * count + len(large) + len(told) - len(last) + 3, elf.ABS64, entry, 0))
    lines = made.section(".debug_line", elf.PROGBITS, 0, small * count + large + told)
    made.relocations(lines, fields)
    path = folder / "lines.o"
    path.write_bytes(made.bytes())
    return refused(folder, [path], None)


def weak_ends(folder, count):
    made = Names()
    made.section(".text", elf.PROGBITS, CODE, b"\xc3")
    table, places = ends_of_one_text(count)
    path = folder / "ends.o"
    path.write_bytes(made.with_places(table, [(at, elf.WEAK << 4, 0, 0) for at in places]))
    return link_and_check(folder, [start(folder), path])


def overlapping_names(folder, count):
    made = Names()
    section = made.section(".text", elf.PROGBITS, CODE, b"\xc3")
    table, symbols = bytearray(b"\0"), []
    for k in range(count // 10):
        symbols += [(len(table) + 8 * end, elf.GLOBAL << 4, section, 0) for end in range(10)]
        table += b"x" * 78 + f"_{k:010}\0".encode()
    path = folder / "overlaps.o"
    path.write_bytes(made.with_places(bytes(table), symbols))
    return link_and_check(folder, [start(folder), path])


def empty_archive(folder):
    path = folder / "libe.a"
    path.write_bytes(b"!<arch>\n")
    return path


def many_directories(folder, count):
    empty_archive(folder)
    words = [start(folder)] + [f"-L{k:x}" for k in range(count - 1)] + [f"-L{folder}", "-le"]
    return link_and_check(folder, words)


def many_libraries(folder, count):
    empty_archive(folder)
    return link_and_check(folder, [start(folder), f"-L{folder}"] + ["-le"] * count)


def group_names(folder, count):
    """Each archive but the first has a member of a name that nothing asks for."""
    asking = elf.Object()
    asking.symbol("first", asking.section(".text", elf.PROGBITS, CODE, b"\xc3"))
    for k in range(40 * count):
        asking.symbol(f"wanted{k}", 0)
    parts = [(["first"], asking.bytes())]
    for k in range(1, count):
        made = elf.Object()
        made.symbol(f"other{k}", made.section(".text", elf.PROGBITS, CODE, b"\xc3"))
        parts.append(([f"other{k}"], made.bytes()))
    words = [folder / f"lib{k}.a" for k in range(count)]
    for path, part in zip(words, parts):
        path.write_bytes(elf.archive([part]))
    return link_and_check(folder, [start(folder, ["first"]), "-("] + words + ["-)"])


def group_order(folder, count):
    """The member of each archive but the first asks for that of the one before it, and the start for the last one's."""
    words = [folder / f"lib{k}.a" for k in range(count)]
    for k, path in enumerate(words):
        made = elf.Object()
        made.symbol(f"f{k}", made.section(".text", elf.PROGBITS, CODE, b"\xc3"))
        if k:
            made.symbol(f"f{k - 1}", 0)
        path.write_bytes(elf.archive([([f"f{k}"], made.bytes())]))
    return link_and_check(folder, [start(folder, [f"f{count - 1}"]), "-("] + words + ["-)"])


def folded(first, second):
    """Two words as the hashers of names join them."""
    product = first * second
    return product & (1 << 64) - 1 ^ product >> 64


def flooding(kind, number):
    """A name of 16 bytes, of which the last eight make a factor 0: the second word of the seed that `elf_model` calls fixed."""
    factor = 0x9E3779B97F4A7C15 ^ 16
    secret = folded(folded(0x243F6A8885A308D3, factor), factor)
    return (f"{kind}{number:07x}".encode() + secret.to_bytes(8, "little")).decode(errors="surrogateescape")


def flooded(folder, count):
    made = elf.Object()
    code = made.section(".text", elf.PROGBITS, CODE, bytes(4 * count))
    data = made.section(".data", elf.PROGBITS, DATA, bytes(8))
    for k in range(count):
        made.symbol(flooding("s", k), data)
    made.relocations(code, [(4 * k, elf.GOTPCREL, 1 + k, 0) for k in range(count)])
    for k in range(count):
        made.symbol(flooding("c", k), elf.COMMON, value=1, size=1)
    grouped = elf.Object()
    for k in range(count):
        number = len(grouped.sections) + 1
        grouped.section(".group", elf.GROUP, 0, struct.pack("<II", 1, number + 1), 4, 1 + k)
        grouped.section(".text.f", elf.PROGBITS, CODE | elf.IN_GROUP, b"\xc3")
        grouped.symbol(flooding("g", k), number + 1, elf.WEAK)
    parts = elf.Object()
    for k in range(count):
        parts.section(flooding("o", k), elf.PROGBITS, DATA, b"\0")
    idle = elf.Object()
    idle.symbol("idle", idle.section(".text", elf.PROGBITS, CODE, b"\xc3"))
    words = [folder / name for name in ("symbols.o", "groups.o", "parts.o", "libidle.a")]
    for path, body in zip(words, (made.bytes(), grouped.bytes(), parts.bytes())):
        path.write_bytes(body)
    words[-1].write_bytes(elf.archive([([flooding("i", k) for k in range(count)], idle.bytes())]))
    return link_and_check(folder, [start(folder)] + words)


def products(folder, count):
    for k in range(count):
        (folder / f"libe{k:x}.a").write_bytes(b"!<arch>\n")
    words = [start(folder)] + [f"-L{k:x}" for k in range(count - 1)] + [f"-L{folder}"]
    return link_and_check(folder, words + [f"-le{k:x}" for k in range(count)])


def image_of(headers, size):
    """The beginning of an image with these program headers, entered at 0x401000."""
    header = b"\x7fELF\x02\x01\x01" + bytes(9)
    header += struct.pack("<HHIQQQIHHHHHH", 2, 62, 1, 0x401000, 64, 0, 0, 64, 56, len(headers), 64, 0, 0)
    made = header + b"".join(headers)
    return made + bytes(size - len(made))


def load_header(rights, at, in_file, in_memory):
    return struct.pack("<IIQQQQQQ", 1, rights, at - 0x400000, at, at, in_file, in_memory, 4096)


STACK = struct.pack("<II", 0x6474E551, 6) + bytes(48)
PLACE = "place 0000000000401000 9 0 1 .text\n"
SYMBOL = "symbol 0000000000401000 strong 0 1 _start\n"


def check_of_map(folder, count, before, line, behind, clause):
    """A check of the image of one object with a map that has a million further lines."""
    image, text = folder / "image", folder / "map"
    headers = [load_header(4, 0x400000, 232, 232), load_header(5, 0x401000, 9, 9), STACK]
    image.write_bytes(image_of(headers, 0x1000) + EXIT)
    lines = "".join(line(k) for k in range(count))
    path = start(folder)
    text.write_text(f"ldmap 2\nobject 0 0 0 {path}\n{before}{lines}{behind}end\n")
    words = ["-s", "-o", image, f"-Map={text}", "--check", path]
    return [Step("check", words, [path, image, text], f"no C{clause}\n", 1)]


def map_of_objects(folder, count):
    return check_of_map(folder, count, "", lambda k: f"object {k + 1} 0 0 a.o\n", PLACE + SYMBOL, 2)


def map_of_slots(folder, count):
    return check_of_map(folder, count, PLACE, lambda k: f"slot {0x403000 + 8 * k:016x} value name n\n", SYMBOL, 7)


def map_of_symbols(folder, count):
    return check_of_map(folder, count, PLACE, lambda k: f"symbol {0x401000:016x} strong 0 1 Z{k:08}\n", SYMBOL, 13)


def many_segments(folder, count):
    """An object of sections of zeros that stand a page apart, each in a PT_LOAD of its own, of which a file has no byte."""
    made = elf.Object()
    made.symbol("_start", made.section(".text", elf.PROGBITS, CODE, EXIT))
    for _ in range(count):
        made.section(".bss", elf.NOBITS, DATA, b"", 4096, size=1)
    path, image, text = folder / "zeros.o", folder / "image", folder / "map"
    path.write_bytes(made.bytes())
    size = 64 + 56 * (count + 3)
    code = 0x400000 + (size + 4095) // 4096 * 4096
    zeros = [code + 4096 * (k + 1) for k in range(count)]
    headers = [load_header(4, 0x400000, size, size), load_header(5, code, 9, 9)]
    headers += [load_header(6, at, 0, 1) for at in zeros] + [STACK]
    begin = image_of(headers, code - 0x400000)
    image.write_bytes(begin[:24] + struct.pack("<Q", code) + begin[32:] + EXIT)
    places = "".join(f"place {at:016x} 1 0 {k + 2} .bss\n" for k, at in enumerate(zeros))
    text.write_text(
        f"ldmap 2\nobject 0 0 0 {path}\nplace {code:016x} 9 0 1 .text\n{places}symbol {code:016x} strong 0 1 _start\nend\n"
    )
    words = ["-s", "-o", image, f"-Map={text}", "--check", path]
    return [Step("check", words, [path, image, text], "yes\n")]


def wrong_zeros(folder, count):
    """An object with so many MiB of zeros, and an image of it with a wrong byte of code: the check says so, and the zeros are in no file."""
    made = elf.Object()
    made.symbol("_start", made.section(".text", elf.PROGBITS, CODE, EXIT))
    made.section(".bss", elf.NOBITS, DATA, b"", 1, size=count << 20)
    path, image, text = folder / "zeros.o", folder / "image", folder / "map"
    path.write_bytes(made.bytes())
    headers = [load_header(4, 0x400000, 288, 288), load_header(5, 0x401000, 9, 9), load_header(6, 0x402000, 0, count << 20), STACK]
    image.write_bytes(image_of(headers, 0x1000) + EXIT[:1] + b"\x3d" + EXIT[2:])
    zeros = f"place 0000000000402000 {count << 20} 0 2 .bss\n"
    text.write_text(f"ldmap 2\nobject 0 0 0 {path}\n{PLACE}{zeros}{SYMBOL}end\n")
    words = ["-s", "-o", image, f"-Map={text}", "--check", path]
    return [Step("check", words, [path, image, text], "no C10\n", 1)]


INPUTS = {
    "weak": (weak_symbols, 1_000_000),
    "sections": (many_sections, 65_000),
    "entries": (index_entries, 1_000_000),
    "signatures": (one_signature, 100_000),
    "locals": (local_names, 1_000_000),
    "overlaps": (overlapping_names, 1_000_000),
    "directories": (many_directories, 100_000),
    "libraries": (many_libraries, 100_000),
    "map-objects": (map_of_objects, 1_000_000),
    "map-slots": (map_of_slots, 1_000_000),
    "map-symbols": (map_of_symbols, 1_000_000),
    "segments": (many_segments, 32_600),
    "wrong-zeros": (wrong_zeros, 4_000_000),
    "group-names": (group_names, 2_000),
    "group-order": (group_order, 10_000),
    "flooded": (flooded, 16_000),
    "local-slots": (local_slots, 100_000),
    "long-name": (long_name, 100_000),
    "debug-name": (debug_name, 100_000),
    "debug-gaps": (debug_gaps, 2_000),
    "one-undefined": (one_undefined, 100_000),
    "lines": (line_tables, 20_000),
}

# Those of which `ld-debug` leaves the LOCAL symbols out, since their names, each spelled whole, would fill the disk.
WITH_LONG_NAMES = ("locals", "local-slots")
LEFT_OUT = "ld: left out the LOCAL symbols of 1 object: their names come to more bytes than the object has\n"

# Those whose images have no tables for tools.
WITHOUT_TABLES = ("map-objects", "map-slots", "map-symbols", "segments")

NOT_LINEAR = {
    "weak-ends": (weak_ends, 5_000),
    "undefined": (undefined_ends, 5_000),
    "products": (products, 400),
}


def answer(kind, name, step):
    """What a program must print in a step of an input, None for any text, and its status."""
    if kind == "ld-debug" and name in WITHOUT_TABLES and step.status == 0:
        return "no tables\n", 1
    if kind == "ld-debug" and name in WITH_LONG_NAMES and step.name == "link":
        return LEFT_OUT, 0
    if kind == "ld-why" and step.status == 1:
        return None, 1
    return step.expect, step.status


def measured(program, step, expect, status):
    """Runs a step: seconds and KiB. GNU time stands between, since a child of this process would count this one's memory."""
    with tempfile.NamedTemporaryFile("r") as usage:
        words = [shutil.which("time"), "-q", "-f", "%U %S %M", "-o", usage.name, str(program)] + step.words
        run = subprocess.run(words, stdout=subprocess.PIPE, stderr=subprocess.STDOUT, text=True, check=False)
        user, system, kib = usage.read().split()
    if run.returncode != status or expect is not None and run.stdout != expect:
        raise Failed(f"{step.name}: status {run.returncode}: {run.stdout[:500].strip()}")
    return float(user) + float(system), int(kib)


def medians(kind, program, name, steps, runs):
    """The medians of seconds and KiB of each step, and its bytes, by its name. `ld-why` checks what `ld` linked before."""
    results = {}
    for step in steps:
        rows = [measured(program, step, *answer(kind, name, step)) for _ in range(runs)]
        size = sum(file.stat().st_size for file in step.files) + sum(len(word) + 1 for word in step.words)
        results[step.name] = (statistics.median(row[0] for row in rows), statistics.median(row[1] for row in rows), size)
    return results


def print_rows(kind, name, count, results, single):
    """Prints a line for each step, with its growth where there is a single input. Whether all stay within the limit."""
    within = True
    for step, (seconds, kib, size) in results.items():
        line = f"{name:<14}{kind:<9}{count:>10,}  {step:<6}{size / 1e6:>9.1f}{seconds:>9.2f}{kib / 1024:>9.1f}{1024 * kib / size:>9.2f}"
        if single:
            time, memory = seconds / max(single[step][0], 0.01), kib / single[step][1]
            line += f"{time:>8.2f}{memory:>8.2f}"
            within = within and memory <= GROWTH_LIMIT and (time <= GROWTH_LIMIT or seconds < LEAST_SECONDS)
        print(line, flush=True)
    return within


def measure(programs, name, scale, runs):
    """Measures an input and its double by each program. Whether all stay within the limit."""
    make, count = (INPUTS | NOT_LINEAR)[name]
    single, within = {}, True
    for number in (int(count * scale), 2 * int(count * scale)):
        with tempfile.TemporaryDirectory(prefix="hurt-") as place:
            steps = make(Path(place), number)
            for kind, program in programs.items():
                if kind == "ld-why" and len(steps) > 1 and "ld" not in programs:
                    measured(PROVED["ld"], steps[0], *answer("ld", name, steps[0]))
                results = medians(kind, program, name, steps, runs)
                within = print_rows(kind, name, number, results, single.get(kind)) and within or name in NOT_LINEAR
                single[kind] = results
    return within


def main():
    parser = argparse.ArgumentParser(description="Measures the proved programs on inputs that hurt.")
    parser.add_argument("--only", choices=list(PROVED))
    parser.add_argument("--program", type=Path)
    parser.add_argument("--runs", type=int, default=3)
    parser.add_argument("--scale", type=float, default=1.0)
    parser.add_argument("inputs", nargs="*", choices=[[], *INPUTS, *NOT_LINEAR])
    asked = parser.parse_args()
    programs = {asked.only: asked.program or PROVED[asked.only]} if asked.only else dict(PROVED)
    if asked.program and not asked.only:
        parser.error("--program goes with --only")
    missing = [str(path) for path in programs.values() if not os.access(path, os.X_OK)]
    if not shutil.which("time") or missing:
        print(f"needs GNU time, and {' '.join(missing)}: rt run in their crates", file=sys.stderr)
        return 2
    programs = {kind: path.resolve() for kind, path in programs.items()}
    # Room for the words: a fourth of the stack's limit.
    resource.setrlimit(resource.RLIMIT_STACK, (64 << 20, resource.getrlimit(resource.RLIMIT_STACK)[1]))
    print(f"{'input':<14}{'program':<9}{'count':>10}  {'step':<6}{'MB':>9}{'seconds':>9}{'MiB':>9}{'by bytes':>9}{'time':>8}{'memory':>8}")
    within = True
    for name in asked.inputs or INPUTS:
        try:
            within = measure(programs, name, asked.scale, asked.runs) and within
        except Failed as failure:
            print(f"{name}: {failure}", flush=True)
            within = False
    return 0 if within else 1


if __name__ == "__main__":
    sys.exit(main())
