#!/usr/bin/env python3
"""Refuses each growth of memory in turn in each public call, on links whose images and maps stand here byte for byte, and
on two that are refused.

    tools/growths_of_calls.py [PROGRAM]
    tools/growths_of_calls.py --write

PROGRAM is the proved crates/growths/out/growths where none is given; it makes the calls, prints what they answer, and
makes a call again that answers Memory. For N = 1, 2, .. the Nth growth is refused, until a run needs fewer. In each run
just one call must answer Memory, and all else must be printed as without a refusal. A refusal while the program reads
its own inputs ends it with status 3. Needs cc, whose shared object refuses (refuse_growth.c).

Prints how many growths were refused in each call. With --write it writes the files on which `rt ci` runs the program,
those of the archives in a group, and what it must print, into crates/growths. The exit status is 1 where an answer is another one, 2 without the
program or cc.
"""

import os
import struct
import subprocess
import sys
import tempfile
from collections import Counter
from pathlib import Path

ROOT = Path(__file__).resolve().parent.parent
sys.path.insert(0, str(ROOT / "tools" / "judge"))

import elf  # noqa: E402

PROVED = ROOT / "crates" / "growths" / "out" / "growths"
BASE = 0x400000
LOAD, TLS, STACK = 1, 7, 0x6474E551
READ, CODE, WRITABLE = 4, 5, 6

# exit(0) by a system call
EXIT = bytes.fromhex("b83c00000031ff0f05")
CODE_FLAGS = elf.ALLOC | elf.EXEC
DATA_FLAGS = elf.ALLOC | elf.WRITE


# What the calls print that make the wanted image and map.
LINKS = [
    "link, its image: as wanted",
    "link, its map: as wanted",
    "prepare: entry 0x401000",
    "image: as wanted",
    "write_image: true",
    "print: as wanted",
]


class Failed(Exception):
    """An answer that is not the wanted one."""


class Row:
    """A link: its files by name, its words, the image and the map that are wanted, and what its calls print: the answers
    of one call in lines of their own, and of all that link or check together."""

    def __init__(self, files, words, image, lines, told):
        self.files = files
        self.words = words
        self.image = image
        self.map = "ldmap 2\n" + "".join(line + "\n" for line in lines) + "end\n"
        self.told = {"links": LINKS, "check": "Yes"} | told


def load_header(rights, start, size):
    """A PT_LOAD of bytes that are all in the file."""
    return struct.pack("<IIQQQQQQ", LOAD, rights, start - BASE, start, start, size, size, 4096)


def image(headers, parts, length):
    """An image that is entered at 0x401000: its program headers, then bytes at offsets among zeros."""
    header = b"\x7fELF\x02\x01\x01" + bytes(9)
    count = len(headers) + 1
    header += struct.pack("<HHIQQQIHHHHHH", 2, 62, 1, 0x401000, 64, 0, 0, 64, 56, count, 64, 0, 0)
    header += b"".join(headers) + struct.pack("<II", STACK, WRITABLE) + bytes(48)
    made = bytearray(length)
    made[: len(header)] = header
    for at, part in parts:
        made[at : at + len(part)] = part
    return bytes(made)


def start_object():
    """`_start` at the beginning of a text of nine bytes."""
    made = elf.Object()
    made.symbol("_start", made.section(".text", elf.PROGBITS, CODE_FLAGS, EXIT), kind=2, size=9)
    return made.bytes()


# The image and the map's lines of that object, and what its calls print.
START_IMAGE = image([load_header(READ, BASE, 0xE8), load_header(CODE, 0x401000, 9)], [(0x1000, EXIT)], 4105)
START_LINES = [
    "object 0 0 0 a.o",
    "place 0000000000401000 9 0 1 .text",
    "symbol 0000000000401000 strong 0 1 _start",
]
START_TOLD = {
    "Object::read": ["a.o: 5 sections, 2 symbols"],
    "load": ["0 0 a.o, without []"],
    "resolve": ["_start of 0 1"],
    "Memory::load": "2 segments",
    "admit": ["a.o: without []"],
}


def one_text():
    return Row({"a.o": start_object()}, ["-s", "a.o"], START_IMAGE, START_LINES, START_TOLD)


def symbol_table():
    """The same with a symbol table: the header's e_shoff, e_shnum and e_shstrndx, and the table behind the text."""
    made = bytearray(START_IMAGE)
    made[40:48] = struct.pack("<Q", 0x1068)
    made[60:64] = struct.pack("<HH", 4, 3)
    made += bytes(7) + bytes(24) + struct.pack("<IBBHQQ", 1, 0x12, 0, 0xFFF1, 0x401000, 9)
    made += b"\0_start\0" + b"\0.symtab\0.strtab\0.shstrtab\0" + bytes(5)
    headers = [(0, 0, 0, 0, 0, 0, 0, 0, 0, 0), (1, 2, 0, 0, 0x1010, 48, 2, 1, 8, 24)]
    headers += [(9, 3, 0, 0, 0x1040, 8, 0, 0, 1, 0), (17, 3, 0, 0, 0x1048, 27, 0, 0, 1, 0)]
    made += b"".join(struct.pack("<IIQQQQIIQQ", *header) for header in headers)
    lines = START_LINES + ["symtab 4112 2"]
    return Row({"a.o": start_object()}, ["a.o"], bytes(made), lines, START_TOLD)


def group_of(made, symbol, member):
    """A COMDAT group of one section."""
    return made.section(".group", elf.GROUP, 0, struct.pack("<II", 1, member), 4, symbol)


def dropped_group():
    """Two strong `f`, each in a COMDAT group of the signature `f`, of which the second is dropped."""
    first, second = elf.Object(), elf.Object()
    first.symbol("_start", first.section(".text", elf.PROGBITS, CODE_FLAGS, EXIT))
    group_of(first, 2, 3)
    first.symbol("f", first.section(".text.f", elf.PROGBITS, CODE_FLAGS | elf.IN_GROUP, b"\xc3"))
    group_of(second, 1, 2)
    second.symbol("f", second.section(".text.f", elf.PROGBITS, CODE_FLAGS | elf.IN_GROUP, b"\xc3"))
    headers = [load_header(READ, BASE, 0xE8), load_header(CODE, 0x401000, 10)]
    return Row(
        {"a.o": first.bytes(), "b.o": second.bytes()},
        ["-s", "a.o", "b.o"],
        image(headers, [(0x1000, EXIT + b"\xc3")], 4106),
        [
            "object 0 0 0 a.o",
            "object 1 1 0 b.o",
            "drop 1 2",
            "place 0000000000401000 9 0 1 .text",
            "place 0000000000401009 1 0 3 .text.f",
            "symbol 0000000000401000 strong 0 1 _start",
            "symbol 0000000000401009 strong 0 2 f",
        ],
        {
            "Object::read": ["a.o: 7 sections, 3 symbols", "b.o: 6 sections, 2 symbols"],
            "load": ["0 0 a.o, without []", "1 0 b.o, without [2]"],
            "resolve": ["_start of 0 1", "f of 0 2"],
            "Memory::load": "2 segments",
            "admit": ["a.o: without []", "b.o: without [2]"],
        },
    )


def object_that_wants(name, text, wanted):
    """A name at the beginning of a text, whose last eight bytes are to be the address of another name."""
    made = elf.Object()
    section = made.section(".text", elf.PROGBITS, CODE_FLAGS, text + bytes(8))
    made.symbol(name, section)
    made.relocations(section, [(len(text), elf.ABS64, made.symbol(wanted, 0), 0)])
    return made.bytes()


def archives_in_a_group():
    """`f` and `h` in one archive and `g` in another one, of which each wants the next one: loaded as f, g, h."""
    last = elf.Object()
    last.symbol("h", last.section(".text", elf.PROGBITS, CODE_FLAGS, b"\xc3"))
    first = object_that_wants("f", b"", "g")
    headers = [load_header(READ, BASE, 0xE8), load_header(CODE, 0x401000, 0x22)]
    addresses = [0x401011, 0x401019, 0x401021]
    text = EXIT + struct.pack("<QQQ", *addresses) + b"\xc3"
    # Behind an index of two numbers and two names, and behind the member with `f`.
    at = 8 + 60 + 4 + 2 * 4 + 4
    return Row(
        {
            "a.o": object_that_wants("_start", EXIT, "f"),
            "libp.a": elf.archive([(["f"], first), (["h"], last.bytes())]),
            "libq.a": elf.archive([(["g"], object_that_wants("g", b"", "h"))]),
        },
        ["-s", "a.o", "-(", "libp.a", "libq.a", "-)"],
        image(headers, [(0x1000, text)], 0x1022),
        [
            "object 0 0 0 a.o",
            f"object 1 1 {at} libp.a",
            "object 2 2 78 libq.a",
            f"object 3 1 {at + 60 + len(first)} libp.a",
            "place 0000000000401000 17 0 1 .text",
            "place 0000000000401011 8 1 1 .text",
            "place 0000000000401019 8 2 1 .text",
            "place 0000000000401021 1 3 1 .text",
            "symbol 0000000000401000 strong 0 1 _start",
            "symbol 0000000000401011 strong 1 1 f",
            "symbol 0000000000401019 strong 2 1 g",
            "symbol 0000000000401021 strong 3 1 h",
        ],
        {
            "Object::read": ["a.o: 6 sections, 3 symbols"],
            "Archive::read": ["libp.a: 2 entries, 2 members", "libq.a: 1 entries, 1 members"],
            "load": [
                "0 0 a.o, without []",
                f"1 {at} libp.a, without []",
                "2 78 libq.a, without []",
                f"1 {at + 60 + len(first)} libp.a, without []",
            ],
            "resolve": ["_start of 0 1", "f of 1 1", "g of 2 1", "h of 3 1"],
            "Memory::load": "2 segments",
            "admit": ["a.o: without []"],
        },
    )


def one_slot():
    """A text that loads an address through the GOT."""
    made = elf.Object()
    text = made.section(".text", elf.PROGBITS, CODE_FLAGS, bytes.fromhex("488b0500000000") + EXIT)
    data = made.section(".data", elf.PROGBITS, DATA_FLAGS, bytes(8), 8)
    made.symbol("_start", text)
    made.relocations(text, [(3, elf.REX_GOTPCRELX, made.symbol("v", data), -4)])
    headers = [
        load_header(READ, BASE, 0x120),
        load_header(CODE, 0x401000, 16),
        load_header(WRITABLE, 0x402000, 0x18),
    ]
    parts = [(0x1000, bytes.fromhex("488b0509100000") + EXIT), (0x2010, struct.pack("<Q", 0x402000))]
    return Row(
        {"a.o": made.bytes()},
        ["-s", "a.o"],
        image(headers, parts, 8216),
        [
            "object 0 0 0 a.o",
            "place 0000000000401000 16 0 1 .text",
            "place 0000000000402000 8 0 2 .data",
            "got 0000000000402008 16",
            "slot 0000000000402010 value name v",
            "symbol 0000000000401000 strong 0 1 _start",
            "symbol 0000000000402000 strong 0 2 v",
        ],
        {
            "Object::read": ["a.o: 7 sections, 3 symbols"],
            "load": ["0 0 a.o, without []"],
            "resolve": ["_start of 0 1", "v of 0 2"],
            "Memory::load": "3 segments",
            "admit": ["a.o: without []"],
        },
    )


def thread_storage():
    """Initial thread-local bytes and thread-local zeros, whose offsets from the thread pointer are -16 and -8."""
    made = elf.Object()
    text = made.section(".text", elf.PROGBITS, CODE_FLAGS, EXIT + bytes(8))
    data = made.section(".tdata", elf.PROGBITS, DATA_FLAGS | elf.TLS, b"\1\2\3\4", 4)
    zeros = made.section(".tbss", elf.NOBITS, DATA_FLAGS | elf.TLS, b"", 8, size=4)
    made.symbol("_start", text)
    symbols = [made.symbol(name, at, kind=elf.THREAD_LOCAL) for name, at in (("d", data), ("t", zeros))]
    made.relocations(text, [(9, elf.TPOFF32, symbols[0], 0), (13, elf.TPOFF32, symbols[1], 0)])
    headers = [
        load_header(READ, BASE, 0x158),
        load_header(CODE, 0x401000, 17),
        load_header(WRITABLE, 0x402000, 4),
        struct.pack("<IIQQQQQQ", TLS, READ, 0x2000, 0x402000, 0x402000, 4, 12, 8),
    ]
    parts = [(0x1000, EXIT + struct.pack("<ii", -16, -8)), (0x2000, b"\1\2\3\4")]
    return Row(
        {"a.o": made.bytes()},
        ["-s", "a.o"],
        image(headers, parts, 8196),
        [
            "object 0 0 0 a.o",
            "place 0000000000401000 17 0 1 .text",
            "place 0000000000402000 4 0 2 .tdata",
            "place 0000000000402008 4 0 3 .tbss",
            "symbol 0000000000401000 strong 0 1 _start",
            "symbol 0000000000402000 strong 0 2 d",
            "symbol 0000000000402008 strong 0 3 t",
        ],
        {
            "Object::read": ["a.o: 8 sections, 4 symbols"],
            "load": ["0 0 a.o, without []"],
            "resolve": ["_start of 0 1", "d of 0 2", "t of 0 3"],
            "Memory::load": "3 segments",
            "admit": ["a.o: without []"],
        },
    )


def second_definition():
    """Two strong `_start`. What is checked is a link of the first object alone."""
    told = START_TOLD | {
        "Object::read": ["a.o: 5 sections, 2 symbols", "b.o: 5 sections, 2 symbols"],
        "load": ["0 0 a.o, without []", "1 0 b.o, without []"],
        "resolve": ["Duplicate (2)"],
        "links": ["link: Duplicate (9)", "prepare: Duplicate (9)"],
        "check": "No(C2)",
        "admit": ["a.o: without []", "b.o: without []"],
    }
    files = {"a.o": start_object(), "b.o": start_object()}
    return Row(files, ["-s", "a.o", "b.o"], START_IMAGE, START_LINES, told)


def no_definition():
    """A relocation to a name without a definition. What is checked is a link of another object."""
    told = START_TOLD | {
        "Object::read": ["a.o: 6 sections, 3 symbols"],
        "links": ["link: Undefined (10)", "prepare: Undefined (10)"],
        "check": "No(C3)",
    }
    return Row({"a.o": object_that_wants("_start", EXIT, "f")}, ["-s", "a.o"], START_IMAGE, START_LINES, told)


ROWS = {
    "one text": one_text,
    "with a symbol table": symbol_table,
    "a dropped group": dropped_group,
    "archives in a group": archives_in_a_group,
    "a slot of the GOT": one_slot,
    "thread-local storage": thread_storage,
    "a second definition": second_definition,
    "no definition": no_definition,
}


def wanted_lines(row):
    """What the program prints of a row, where no growth is refused."""
    items = sum(word in row.files for word in row.words)
    lines = [f"Object::read {line}" for line in row.told["Object::read"]]
    lines += [f"Archive::read {line}" for line in row.told.get("Archive::read", [])]
    lines.append(f"read_words: {items} items, entry _start")
    lines += [f"load: {line}" for line in row.told["load"]]
    lines += [f"resolve: {line}" for line in row.told["resolve"]]
    lines += row.told["links"] + ["escape: as wanted", "linkmap::read: as wanted"]
    lines += [f"Memory::load: entry 0x401000, {row.told['Memory::load']}", f"check: {row.told['check']}"]
    lines += ["offer of the index: same rows: true", "offer of the list: same rows: true"]
    return lines + [f"admit {line}" for line in row.told["admit"]]


def run(program, shim, folder, words, number):
    """Runs the program with one growth refused: whether it was, the status and the lines."""
    told, telling = os.pipe()
    environment = {"LD_PRELOAD": str(shim), "REFUSE_GROWTH": str(number)}

    def as_three():
        os.dup2(telling, 3)

    with os.fdopen(told, "rb") as heard:
        done = subprocess.run(
            [str(program)] + words, cwd=folder, env=environment, pass_fds=(3,), preexec_fn=as_three,
            stdout=subprocess.PIPE, stderr=subprocess.STDOUT, text=True, check=False,
        )
        os.close(telling)
        return heard.read() == b"R", done.returncode, done.stdout.splitlines()


def refused_call(status, lines, wanted):
    """The call that answered Memory in a run with a refused growth, which must be the only other answer."""
    if status == 3 and not lines:
        return "the program's own inputs"
    refusals = [line for line in lines if line.startswith("Memory: ")]
    rest = [line for line in lines if not line.startswith("Memory: ")]
    if status != 0 or len(refusals) != 1 or rest != wanted:
        raise Failed(f"status {status}:\n" + "\n".join(lines))
    return refusals[0].removeprefix("Memory: ")


def write_files(folder, row):
    """Writes the files of a row into a folder. The program's words."""
    for name, content in row.files.items():
        (folder / name).write_bytes(content)
    (folder / "wanted.image").write_bytes(row.image)
    (folder / "wanted.map").write_text(row.map)
    return ["wanted.image", "wanted.map"] + row.words


def write_gate_run():
    """Writes the row on which the gate runs the program, with its words and what it must print."""
    folder = ROOT / "crates" / "growths"
    row = archives_in_a_group()
    (folder / "data").mkdir(exist_ok=True)
    words = write_files(folder / "data", row)
    (folder / "args").write_text("".join(word + "\n" for word in words))
    (folder / "stdout").write_text("".join(line + "\n" for line in wanted_lines(row)))


def sweep(program, shim, folder, row):
    """Refuses each growth of a row in turn. How many were refused in each call."""
    words = write_files(folder, row)
    wanted = wanted_lines(row)
    counts = Counter()
    number = 1
    while True:
        refused, status, lines = run(program, shim, folder, words, number)
        try:
            if refused:
                counts[refused_call(status, lines, wanted)] += 1
            elif status != 0 or lines != wanted:
                raise Failed(f"status {status}:\n" + "\n".join(lines))
            else:
                return counts
        except Failed as failure:
            raise Failed(f"growth {number}: {failure}") from failure
        number += 1


def print_counts(table):
    """Prints a line for each call, with a column for each row."""
    calls = list(dict.fromkeys(call for counts in table.values() for call in counts))
    width = max(map(len, calls))
    for column, name in enumerate(table, 1):
        print(f"{column}: {name}")
    print(" " * width + "".join(f"{column:>7}" for column in range(1, len(table) + 1)))
    for call in calls:
        print(f"{call:<{width}}" + "".join(f"{counts[call]:>7}" for counts in table.values()))
    print(f"{'together':<{width}}" + "".join(f"{sum(counts.values()):>7}" for counts in table.values()))


def main():
    if sys.argv[1:] == ["--write"]:
        write_gate_run()
        return 0
    program = Path(sys.argv[1]).resolve() if len(sys.argv) > 1 else PROVED
    if not os.access(program, os.X_OK):
        print(f"{program} is not there: cd crates/growths && rt run", file=sys.stderr)
        return 2
    table = {}
    with tempfile.TemporaryDirectory() as place:
        shim = Path(place) / "refuse_growth.so"
        source = ROOT / "tools" / "refuse_growth.c"
        try:
            subprocess.run(["cc", "-O2", "-shared", "-fPIC", "-o", str(shim), str(source)], check=True)
        except (OSError, subprocess.CalledProcessError):
            return 2
        for name, make in ROWS.items():
            folder = Path(place) / name.replace(" ", "_")
            folder.mkdir()
            try:
                table[name] = sweep(program, shim, folder, make())
            except Failed as failure:
                print(f"{name}: {failure}", file=sys.stderr)
                return 1
    print_counts(table)
    return 0


if __name__ == "__main__":
    sys.exit(main())
