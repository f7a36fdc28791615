"""Makes a linker script for lld and GNU ld: the segments of docs/PROFILE.md, in each the sections in load order, 0x90 as fill
of code, a word of zeros before the global offset table, and the linker's own names that are used."""

import re
import sys
from typing import Dict, List, NamedTuple, Tuple

import elf
from linkmap import Place
from skeleton import Skeleton, base_of, value_of

FOLDED = (".text", ".rodata", ".data", ".bss", ".tdata", ".tbss", ".init_array", ".fini_array", ".preinit_array")
ARRAYS = ("init_array", "fini_array", "preinit_array")


def output_name(name: str) -> str:
    """The output name of a section (docs/PROFILE.md, "What comes out")."""
    for short in FOLDED:
        if name == short or name.startswith(short + "."):
            return short
    return name


class Group(NamedTuple):
    """An output section: its name, and what its pieces have in common."""

    name: str
    code: bool
    writable: bool
    thread: bool
    nobits: bool

    def part(self) -> int:
        """R, RX, thread-local with and without bytes, RW with and without bytes."""
        if self.code:
            return 1
        if not self.writable:
            return 0
        return {(True, False): 2, (True, True): 3, (False, False): 4, (False, True): 5}[self.thread, self.nobits]


def rank(name: str) -> int:
    """The number of an array of functions; those without one come last."""
    found = re.fullmatch(r"\.(?:init|fini)_array\.(\d{1,5})", name)
    return int(found[1]) if found else 100000


def groups_of(link: Skeleton) -> Dict[Group, List[Place]]:
    """The pieces by group, in load order. The groups stand in the order of their first pieces."""
    found: Dict[Group, List[Place]] = {}
    for place in link.map.places:
        section = link.section(place)
        flags = section.flags
        code, writable, thread = (bool(flags & bit) for bit in (elf.EXEC, elf.WRITE, elf.TLS))
        group = Group(output_name(section.name), code, writable, thread, section.kind == elf.NOBITS)
        found.setdefault(group, []).append(place)
    return found


def quoted(name: str) -> str:
    """A name of a section, a file or a symbol, as linker scripts spell it. A quote can't be spelled there, and what comes after
    one, or after the end of a line, would be read as the script's own."""
    if re.fullmatch(r"[\w.$/:+-]+", name, re.ASCII):
        return name
    if '"' in name or any(c < " " or c == "\x7f" for c in name):
        sys.exit(f"link.py: no linker script can name {ascii(name)}")
    return f'"{name}"'


def pattern(file: str, names: List[str]) -> str:
    """A statement for the sections of these names in a file."""
    return f"{file}({' '.join(quoted(name) for name in dict.fromkeys(names))})"


def alignment(link: Skeleton) -> int:
    """The greatest alignment of thread-local pieces."""
    return max([link.section(place).align for place in link.map.places if link.section(place).flags & elf.TLS] or [1])


class Script:
    """A linker script so far, and the names that the link uses of the linker's own."""

    def __init__(self, link: Skeleton, words: List[str], edited: Dict[str, str], by_file: bool):
        self.link = link
        self.base = base_of(words)
        self.entry = value_of(words, "-e", "_start")
        self.edited = edited
        self.by_file = by_file
        self.used = {name.name for name in link.map.names if name.meaning == ("linker",)}
        self.groups = groups_of(link)
        self.lines: List[str] = []
        self.defined: List[str] = []

    def mark(self, *names: str) -> str:
        """Assignments of the current address to those of the names that are used."""
        wanted = [name for name in names if name in self.used]
        self.defined += wanted
        return "".join(f"{name} = .; " for name in wanted)

    def of_part(self, part: int) -> Dict[Group, List[Place]]:
        return {group: places for group, places in self.groups.items() if group.part() == part}

    def statements(self, places: List[Place]) -> str:
        """The statements for input sections: for each number of an array and for the rest, and for each file if need be."""
        ranked: Dict[Tuple[int, str], List[str]] = {}
        for place in sorted(places, key=lambda place: rank(self.link.section(place).name)):
            name = self.link.section(place).name
            file = self.file_of(place.owner) if self.by_file else "*"
            ranked.setdefault((rank(name), file), []).append(self.edited.get(name, name))
        return " ".join(pattern(file, names) for (_, file), names in ranked.items())

    def file_of(self, owner: int) -> str:
        """An object as linker scripts name it: PATH, or ARCHIVE:MEMBER."""
        label = self.link.labels[owner]
        if self.link.map.objects[owner].offset:
            archive = self.link.map.objects[owner].path
            return quoted(f"{archive}:{label[len(archive) + 1 : -1]}")
        return quoted(label)

    def inner(self, group: Group, places: List[Place]) -> str:
        """The inside of an output section, between the names for where it begins and ends."""
        plain = group.name[1:] if group.name[1:] in ARRAYS else None
        begin = self.mark(f"__{plain}_start") if plain else self.mark(f"__start_{group.name}")
        body = self.statements(places)
        end = self.mark(f"__{plain}_end") if plain else self.mark(f"__stop_{group.name}")
        return f"{begin}{body} {end}"

    def section(self, name: str, body: str, segments: str, fill: str = "") -> None:
        self.lines.append(f"  {quoted(name)} : {{ {body}}} {segments}{fill}")

    def separate(self, part: int, segments: str) -> None:
        """An output section for each group of a part."""
        for group, places in self.of_part(part).items():
            self.section(group.name, self.inner(group, places), segments)

    def joined(self, name: str, part: int, segments: str, begin: str = "", end: str = "", fill: str = "") -> None:
        """One output section for all groups of a part."""
        body = "".join(self.inner(group, places) for group, places in self.of_part(part).items())
        self.section(name, begin + body + end, segments, fill)

    def has_bytes(self, *parts: int) -> bool:
        """Whether a piece of these parts isn't empty. Only then is there a segment for them."""
        return any(place.size for part in parts for places in self.of_part(part).values() for place in places)

    def code(self) -> None:
        """One output section, so that nothing but fill of 0x90 is between its pieces."""
        if self.has_bytes(1):
            self.lines.append("  . = ALIGN(4096);")
            self.joined(".text", 1, ":rx", end=self.mark("_etext", "etext"), fill=" =0x90909090")

    def has_data(self) -> bool:
        return self.has_bytes(2, 4, 5) or bool(self.link.map.got or any(common.size for common in self.link.map.commons))

    def data(self) -> None:
        """Thread-local pieces, those with bytes, the global offset table, those without bytes, common blocks."""
        if not self.has_data():
            return
        self.lines.append("  . = ALIGN(4096);")
        if self.has_threads():
            self.lines.append(f"  . = ALIGN({alignment(self.link)});")
        self.separate(2, ":rw :tls")
        self.separate(3, ":rw :tls")
        self.separate(4, ":rw")
        if self.link.map.got:
            # Three words of zeros, which go as fill there.
            self.section(".got.plt", "*(.got.plt) ", ":rw")
            self.section(".got", "QUAD(0) *(.got) ", ":rw")
        self.lines.append("  " + self.mark("_edata", "edata"))
        if self.of_part(5) or self.link.map.commons:
            self.joined(".bss", 5, ":rw", begin=self.mark("__bss_start"), end="*(COMMON) ")

    def has_threads(self) -> bool:
        return bool(self.of_part(2) or self.of_part(3))

    def headers(self) -> str:
        """The program headers: a PT_LOAD for each part that there is, PT_TLS and PT_GNU_STACK."""
        rows = ["r PT_LOAD FILEHDR PHDRS FLAGS(4);"]
        rows += ["rx PT_LOAD FLAGS(5);"] if self.has_bytes(1) else []
        rows += ["rw PT_LOAD FLAGS(6);"] if self.has_data() else []
        rows += ["tls PT_TLS FLAGS(4);"] if self.has_threads() else []
        return " ".join(rows + ["stack PT_GNU_STACK FLAGS(6);"])

    def text(self, absent: List[str]) -> str:
        """The whole script. Names in `absent` get the value 0."""
        self.lines = [f"  {self.mark_base()}. = {self.base:#x} + SIZEOF_HEADERS;"]
        self.separate(0, ":r")
        self.code()
        self.data()
        self.lines.append("  " + self.mark("_end", "end"))
        zeros = [name for name in sorted(self.used - set(self.defined)) if name != "_GLOBAL_OFFSET_TABLE_"]
        outside = [f"{quoted(name)} = 0;" for name in zeros + absent]
        top = [f"ENTRY({quoted(self.entry)})", f"PHDRS {{ {self.headers()} }}", *outside]
        return "\n".join([*top, "SECTIONS {", *self.lines, "}", ""])

    def mark_base(self) -> str:
        wanted = [name for name in ("__executable_start", "__ehdr_start") if name in self.used]
        self.defined += wanted
        return "".join(f"{name} = {self.base:#x}; " for name in wanted)


def undefined_weak(link: Skeleton) -> List[str]:
    """Names that WEAK symbols ask for and nothing defines."""
    every = [symbol for it in link.objects for symbol in it.symbols]
    asked = {symbol.name for symbol in every if symbol.binding == elf.WEAK and symbol.section == elf.UNDEFINED}
    return sorted(asked - {name.name for name in link.map.names})
